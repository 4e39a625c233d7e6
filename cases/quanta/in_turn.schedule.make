# an event of each in turn
for turn in $(seq 60); do printf '/\n/0\n/1\n'; done
