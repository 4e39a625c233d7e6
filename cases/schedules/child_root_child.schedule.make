for turn in $(seq 100); do printf '/1\n/\n/0\n'; done
