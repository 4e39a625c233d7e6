# Source lines of addresses and events (sdk/lines), by tests/lines.py.
if [ -z "$explain" ] || [ ! -d ../examples ]; then
    echo "sdk/lines is not tried: EXPLAIN is not said, or the examples are not there"
else
    mkdir "$room/lines"
    while read -r said name; do
        case "$said" in
            passed) count yes ;;
            failed*) count no; echo "lines: $said $name" ;;
            *) echo "$said $name" ;;
        esac
    done < <(python3 tests/lines.py "$det" "$explain" "$room/lines" 2>&1 || echo "failed: tests/lines.py ends with $?")
fi
