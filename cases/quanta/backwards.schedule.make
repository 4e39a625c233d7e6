# the threads first, the higher number before the lower, whenever they may go on; some are not there yet, or have stopped
for turn in $(seq 60); do printf '/1\n/1\n/1\n/0\n/0\n/0\n/\n'; done
