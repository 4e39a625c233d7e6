# Each path in turn, some of which lead to no space.
for turn in $(seq 200); do printf '%s\n' /1 / /9 /1/2 /0 /9/1 /9/0; done
