# The examples floats and files for a number by chance, and library, beside the same programs by the compiler of the host, if it
# has one.

# Builds an example for the host and runs it in a folder of its own, on an input.
on_host() {
    local name=$1 input=$2
    "$host" -O1 -w "examples/$name.c" -o "$room/$name" -lm > "$room/said" 2>&1 || return 1
    rm -rf "$room/folder"
    mkdir "$room/folder"
    (cd "$room/folder" && TZ=UTC "$room/$name" < "$input" > "$room/want")
    return 0
}

beside_host() {
    local name=$1 seed=$2
    if [ "$name" = library ]; then
        { sed -n 's/^in //p' examples/library.script; sed -n 's/^raw //p' examples/library.script | sed 's/../\\x&/g' | xargs -0 printf '%b'; } |
            sed -z 's/\n$//' > "$room/input"
        cp examples/library.script "$room/chance.script"
    else
        echo "$seed" > "$room/input"
        echo "in $seed" > "$room/chance.script"
    fi
    if ! on_host "$name" "$room/input"; then
        echo "  not tried, since $host does not build it: examples/$name.c"
        return
    fi
    "$det" run --limit "$(cat "examples/$name.limit")" "examples/$name.elf" "$room/chance.script" > "$room/console" 2> "$room/report"
    if same "$room/want" "$room/console" "examples/$name.elf, input $seed: another console than on the host"; then count yes; else count no; fi
}

host=$(command -v cc gcc clang | head -n 1)
if [ -n "$host" ]; then
    for name in floats files library; do beside_host "$name" $((RANDOM * 32768 + RANDOM + 1)); done
else
    echo "no compiler for the host is there"
fi
