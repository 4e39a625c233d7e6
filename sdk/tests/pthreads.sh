# Programs for pthreads (sdk/build -pthread): by each compiler, on each engine.

try_pthreads() {
    local engine well=yes
    echo "/ ret 00000025" > "$room/ends.want"
    for engine in demand rounds pool seats; do
        run "$room/pthreads.elf" none --limit 100000000 --engine $engine
        ends "$room/report" | head -n 1 > "$room/ends"
        same tests/pthreads.console "$room/console" "$compiler, tests/pthreads.c, $engine: another console" || well=no
        same "$room/ends.want" "$room/ends" "$compiler, tests/pthreads.c, $engine: another end" || well=no
    done
    count $well
}

# A program of threads that stops as breakpoint, and what its console has.
try_stop() {
    cat > "$room/stop.c"
    if ! CC=$compiler ./build -pthread "$room/stop.c" -o "$room/stop.elf" > "$room/said" 2>&1; then
        head -n 8 "$room/said"
        count no
        return
    fi
    run "$room/stop.elf" none
    if [ "$(cat "$room/console")" = "$1" ] && grep -q '^/ breakpoint ' "$room/report"; then
        count yes
    else
        echo "$compiler, $1:"
        head -n 3 "$room/console" "$room/report"
        count no
    fi
}

for compiler in "${compilers[@]}"; do
    there "$compiler" || continue
    if CC=$compiler ./build -Wall -Wextra -pthread tests/pthreads.c -o "$room/pthreads.elf" > "$room/said" 2>&1; then
        try_pthreads
    else
        echo "$compiler does not build tests/pthreads.c:"
        head -n 8 "$room/said"
        count no
    fi
    try_stop "pthread: a thread has stopped, cause 00000005 value 00000010" <<< '
        #include <pthread.h>
        static volatile int *volatile wild = (int *)16;
        static void *work(void *x) { return (void *)(__SIZE_TYPE__)(*wild + (x != 0)); }
        int main(void) { pthread_t t; pthread_create(&t, 0, work, 0); return pthread_join(t, 0); }'
    try_stop "threads: a deadlock" <<< '
        #include <pthread.h>
        static pthread_mutex_t m; static pthread_cond_t c;
        int main(void) { pthread_mutex_lock(&m); return pthread_cond_wait(&c, &m); }'
done
