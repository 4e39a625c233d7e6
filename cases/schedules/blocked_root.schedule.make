# Child 1 returns, and the root comes to its wait; /1/10 is left in the middle of its way, with lines between that may not happen.
for turn in $(seq 90); do echo /1; done
for turn in $(seq 50); do printf '/\n/1/0\n'; done
for turn in $(seq 60); do printf '/\n/1/10\n/1/4\n/\n'; done
