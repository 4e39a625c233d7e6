# All settle, the root copies and starts child 1 again, which returns with its child 3 running; that one gets half of its way.
for turn in $(seq 90); do echo /1; done
for turn in $(seq 105); do printf '/\n/1/10\n'; done
for turn in $(seq 20); do echo /; done
for turn in $(seq 10); do printf '/1\n/\n'; done
for turn in $(seq 50); do printf '/\n/1/3\n/1/10\n/1/9\n'; done
