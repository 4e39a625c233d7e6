# the root has 7 instructions before the loop, 9 in each of its 64 turns, and 16 behind it; 32 of them stand before the threads' code
printf '/ ret 00400080 00001080 %d\n' $((7 + 64 * 9 + 16))
for i in $(seq 0 63); do printf '/%d ret %08x 00001090 4\n' $((65472 + i)) $((65 + i)); done
