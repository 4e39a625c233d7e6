# What is told of each thread by its number, worked out from the program's source: four or five own events, of which the last two are told.
for ((k = 0; k < 300; k++)); do
    if ((k % 2 == 1)); then
        printf 'trap /%d illegal 00000000\n' $k
        printf '/%d:3 pc 0000102c bne t1, zero, 0x00001038\n' $k
        printf '/%d:4 pc 00001038 stops illegal 00000000\n' $k
        continue
    fi
    # Thread 0 leaves t0 as it found it.
    shift=$(printf '/%d:4 pc 00001030 slli t0, s0, 2' $k)
    by='no own event'
    if ((k > 0)); then
        shift+=$(printf ' x5 t0 00000000 -> %08x' $((4 * k)))
        by=$shift
    fi
    printf 'trap /%d load-fault %08x\n' $k $((4 * k))
    echo "$shift"
    printf '/%d:5 pc 00001034 lw t2, 0(t0) stops load-fault %08x\n' $k $((4 * k))
    echo "register t0 changed by $by"
done
