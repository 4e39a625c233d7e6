for turn in $(seq 200); do printf '/1/2\n/1\n/\n'; done
