# the root has 27 instructions in no loop, 3 and 4 for each of 4,076 pages, 6 for each of 64 threads, and 8 for each of 4 rounds
printf '/ ret %08x 000010c0 %d\n' $((4076 + 4 * 64)) $((27 + 7 * 4076 + 6 * 64 + 8 * 4))
for i in $(seq 0 63); do echo "/$i limit 00000000 000010c0 44"; done
