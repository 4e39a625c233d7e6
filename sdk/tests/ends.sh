# Programs that end in each way: what is buffered goes out, functions of atexit run, the end of the input is feof. tests/ends.c
# is built by each compiler with each library that it has.

# One end: what the console has to be, the report without pc and used, and the lines of the script.
try_end() {
    printf '%s' "$1" > "$room/want"
    printf '%s\n' "$2" > "$room/want.report"
    printf '%s' "$3" > "$room/ends.script"
    "$det" run --limit 10000000 "$room/ends.elf" "$room/ends.script" > "$room/console" 2> "$room/report" < /dev/null
    ends "$room/report" > "$room/got.report"
    if same "$room/want" "$room/console" "$compiler $library, ends.c, $3: another console" &&
        same "$room/want.report" "$room/got.report" "$compiler $library, ends.c, $3: another report"; then
        count yes
    else
        count no
    fi
}

# An end as breakpoint: how the input says it, and a pattern for the console.
try_breakpoint() {
    printf 'in %s\n' "$1" > "$room/ends.script"
    "$det" run "$room/ends.elf" "$room/ends.script" > "$room/console" 2> "$room/report"
    # shellcheck disable=SC2053
    if [[ "$(cat "$room/console")" == $2 ]] && grep -q '^/ breakpoint' "$room/report"; then
        count yes
    else
        echo "$compiler $library, ends.c, $1: another console or report: $(cat "$room/console"), $(cat "$room/report")"
        count no
    fi
}

try_ends() {
    local long many
    if ! CC=$compiler ./build "$library" -Wall -Wextra tests/ends.c -o "$room/ends.elf" > "$room/said" 2>&1; then
        head -n 4 "$room/said"
        count no
        return
    fi
    long=$(printf '0123456789%.0s' $(seq 1000))
    many=$(printf 'in %0500d\n' $(seq 20))
    try_end 'feof 1, ferror 0' '/ ret 00000000' ''
    try_end 'return stderr atexit ' '/ ret 00000004' 'in return'
    try_end 'exit atexit ' '/ ret 00000001' 'in exit'
    try_end 'det_return ' '/ ret 00000002' 'in det_return'
    try_end 'trap ' '/ load-fault 00000000' 'in trap'
    try_end "long line ${long}stderr atexit " '/ ret 00000004' 'in long line'
    try_end 'words 0 [program] 1 [NULL] stderr atexit ' '/ ret 00000004' 'in words'
    try_end 'lines 261, feof 1, ferror 0 stderr atexit ' '/ ret 00000004' "in lines
$many
raw 7878"
    try_end 'thread cause 16 stderr atexit ' $'/ ret 00000004\n/0 badcall 00000006' 'in thread'
    try_end 'child cause 20: buffered stderr atexit ' '/ ret 00000004' 'in child'
    try_breakpoint abort 'abort '
    try_breakpoint assert 'assert *count == 0*'
}

for compiler in "${compilers[@]}"; do
    there "$compiler" || continue
    library=--small
    if has "$compiler" picolibc; then
        try_ends
        library=--picolibc
    fi
    try_ends
done
