# every space of a chain of nine levels, the deepest ones first, a hundred times in turn; some are not there yet, or have stopped
for turn in $(seq 100); do
    for child in 0 1 2 3 4 5 6; do echo "/0/0/0/0/0/0/0/$child"; done
    for path in /0/0/0/0/0/0/0 /0/0/0/0/0/0 /0/0/0/0/0 /0/0/0/0 /0/0/0 /0/0 /0 /; do echo $path; done
done
