# Each path in turn, to before the end.
for turn in $(seq 190); do printf '%s\n' /1/10 / /1 /1/3 /4 /1/0 /2; done
