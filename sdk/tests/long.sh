# Programs that outlast their fuel (sdk/build --long): tests/long.elf as it is kept, and tests/long.c by each compiler.

# Runs a file of ELF at a limit: console and root's line of the report are those of a run with fuel enough.
lasts() {
    local limit=$1 file=$2
    shift 2
    "$det" run --limit "$limit" "$@" "$file" tests/long.script > "$room/console" 2> "$room/report" < /dev/null
    ends "$room/report" | head -n 1 > "$room/ends"
    echo "/ ret 0000004d" > "$room/ends.want"
    same tests/long.console "$room/console" "$file at $limit, $*: another console" &&
        same "$room/ends.want" "$room/ends" "$file at $limit, $*: another end"
}

try_limits() {
    local limit well=yes
    for limit in 4294967295 200001 77777 50021 50033; do lasts $limit "$1" || well=no; done
    count $well
}

try_kept() {
    local engine well=yes
    for engine in demand rounds pool seats; do lasts 60013 tests/long.elf --engine $engine || well=no; done
    count $well
    if [ -n "$explain" ]; then
        DET=$det EXPLAIN=$explain ./files out --limit 60013 tests/long.elf tests/long.script "$room/long.files"
        if [ "$(stat -c %s "$room/long.files/sums")" = 80 ]; then count yes; else echo "the file of tests/long.elf is not the root's"; count no; fi
    fi
}

try_kept
for compiler in "${compilers[@]}"; do
    there "$compiler" || continue
    if CC=$compiler ./build --long -Wall -Wextra -s tests/long.c -o "$room/long.elf" > "$room/said" 2>&1; then
        try_limits "$room/long.elf"
    else
        echo "$compiler does not build tests/long.c --long:"; head -n 8 "$room/said"; count no
    fi
done
