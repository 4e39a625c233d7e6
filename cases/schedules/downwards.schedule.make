for turn in $(seq 10); do printf '/\n/1\n/1/2\n'; done
