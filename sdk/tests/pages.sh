# What docs/PROGRAMS.md shows, by tests/pages.py.
if [ -z "$explain" ] || [ ! -f ../docs/PROGRAMS.md ]; then
    echo "docs/PROGRAMS.md is not tried: EXPLAIN is not said, or the page is not there"
else
    mkdir "$room/pages"
    of_the_page=()
    if [ "$mode" != kept ] && there riscv64-unknown-elf-gcc; then of_the_page=(riscv64-unknown-elf-gcc); fi
    while read -r said name; do
        case "$said" in
            passed) count yes ;;
            failed*) echo "pages: $said $name"; count no ;;
            *) echo "$said $name" ;;
        esac
    done < <(python3 tests/pages.py "$det" "$explain" "$room/pages" "${of_the_page[@]}" 2>&1 || echo "failed: tests/pages.py ends with $?")
fi
