# Each space in turn, from the last to the root.
for turn in $(seq 200); do
    seq -f '/%.0f' 13 -1 0
    echo /9/0
    echo /
done
