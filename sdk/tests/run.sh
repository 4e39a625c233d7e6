# Programs in one command (sdk/run), by tests/run.py.
if [ -z "$explain" ]; then
    echo "sdk/run is not tried: EXPLAIN is not said"
else
    mkdir "$room/run"
    there_are=()
    for compiler in "${compilers[@]}"; do
        if there "$compiler"; then there_are+=("$compiler"); fi
    done
    while read -r said name; do
        if [ "$said" = passed ]; then count yes; else echo "run: $said $name"; count no; fi
    done < <(python3 tests/run.py "$det" "$explain" "$room/run" "${there_are[@]}" 2>&1 || echo "failed: tests/run.py ends with $?")
fi
