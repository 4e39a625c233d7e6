# threads before their processes, and these before the root, by falling numbers, 500 events each; some are not there yet, or have stopped
for turn in $(seq 500); do
    for row in $(seq 14 -1 0); do printf '/%d/0/5\n/%d/1\n/%d/0\n/%d\n' $row $row $row $row; done
    echo /
done
