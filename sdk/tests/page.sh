# Pages of runs (sdk/page), by tests/page.py.
if [ -z "$explain" ] || [ ! -d ../examples ]; then
    echo "sdk/page is not tried: EXPLAIN is not said, or the examples are not there"
else
    mkdir "$room/page"
    while read -r said name; do
        case "$said" in
            passed) count yes ;;
            failed*) count no; echo "page: $said $name" ;;
            *) echo "$said $name" ;;
        esac
    done < <(python3 tests/page.py "$det" "$explain" "$room/page" 2>&1 || echo "failed: tests/page.py ends with $?")
fi
