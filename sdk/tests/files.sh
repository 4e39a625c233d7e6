# Files into a run and out of it (sdk/files), by tests/files.py.
if [ -z "$explain" ]; then
    echo "sdk/files is not tried: EXPLAIN is not said"
else
    mkdir "$room/files"
    while read -r said name; do
        if [ "$said" = passed ]; then count yes; else echo "files: $said $name"; count no; fi
    done < <(python3 tests/files.py "$det" "$explain" "$room/files" 2>&1 || echo "failed: tests/files.py ends with $?")
fi
