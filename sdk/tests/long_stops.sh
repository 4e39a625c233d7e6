# Programs that are built --long and are stopped or refused: by each compiler.

# Builds a program --long that is stopped, and compares console and the first two lines of the report with what is said.
stops() {
    local name=$1 limit=$2 console=$3 report=$4
    cat > "$room/$name.c"
    if ! CC=$compiler ./build --long "$room/$name.c" -o "$room/x.elf" > "$room/said" 2>&1; then
        echo "$compiler does not build $name --long:"; head -n 8 "$room/said"; count no; return
    fi
    run "$room/x.elf" none --limit "$limit"
    if [ "$(cat "$room/console")" = "$console" ] && [ "$(ends "$room/report" | head -n 2 | sed 's/^\/ breakpoint .*/root/' | tr '\n' ';')" = "$report" ]; then
        count yes
    else
        echo "$compiler, $name --long:"; head -n 3 "$room/console" "$room/report"; count no
    fi
}

try_stops() {
    stops trap 1000000 "" "root;/0 load-fault 00000010;" <<< 'int main(void) { return *(volatile int *)16; }'
    stops jump 1000000 "before" "root;/0 fetch-fault 00000000;" <<< '
        #include "det.h"
        static void (*volatile nothing)(void);
        int main(void) { det_write("before\n", 7); nothing(); return 0; }'
    stops reaching 1000000 "" "root;/0 badcall 00000006;" <<< '
        #include "det.h"
        int main(void) { det_write((void *)0xDFFFFFFF, 2); return 0; }'
    stops too_long 1000000 "" "root;/0 badcall 00000006;" <<< '
        #include "det.h"
        int main(void) { det_call(DET_CALL_WRITE, 0, 0x10000, 65537, 0, 0, 0, 0); return 0; }'
    stops forks 100000 "sdk/build --long: the program has made spaces, and has to go on in one whose fuel is not used up" "root;/0 fuel 00000000;" <<< '
        #include "det.h"
        static volatile uint32_t number = DET_CALL_FORK, n;
        int main(void) { det_call(number, 0, 7, 0, 0, 0, 0, 0); while (n < 100000) n++; return 0; }'
}

# A program whose code asks for a space is not built.
try_refused() {
    if CC=$compiler ./build --long examples/sort.c -o "$room/x.elf" > /dev/null 2> "$room/said"; then
        echo "$compiler builds examples/sort.c --long"; count no
    elif ! grep -q 'TFORK at 000.*has one space' "$room/said" || [ -e "$room/x.elf" ]; then
        echo "$compiler, examples/sort.c --long:"; head -n 3 "$room/said"; count no
    else
        count yes
    fi
}

for compiler in "${compilers[@]}"; do
    there "$compiler" || continue
    try_refused
    try_stops
done
