# Adds up what parts of a run report: sourced. A part's last 'N passed, M failed' is its count.

passed=0 failed=0
amiss=  # what the parts that failed said last
counted='.*\b([0-9]+) passed[,;] ([0-9]+) failed.*'

# told LOG: the lines of a log that speak of a failure, at most twelve, and its last twelve.
told() {
    { grep -E -m 12 'not refused|NOT REFUSED|BAD EDIT|FAILED|panicked|error: ' "$1" || true; tail -n 12 "$1"; } | sed 's/^/  /'
}

# part NAME COMMAND...: runs it and adds its count; to end badly or to report nothing is a failure.
part() {
    local name=$1 log good bad status
    shift
    log=$(mktemp)
    echo "== $name"
    set +e
    (set -e && "$@") </dev/null 2>&1 | tee "$log"
    status=${PIPESTATUS[0]}
    set -e
    read -r good bad < <(sed -nE "s/$counted/\\1 \\2/p" "$log" | tail -n 1) || true
    if [ -z "${good:-}" ]; then
        echo "$name: reported no count (status $status)"
        good=0 bad=1
    elif [ "$status" -ne 0 ] && [ "$bad" -eq 0 ]; then
        echo "$name: ended with status $status"
        bad=1
    fi
    [ "$bad" -eq 0 ] || amiss+="failed: $name (status $status)"$'\n'"$(told "$log")"$'\n'
    rm -f "$log"
    passed=$((passed + good)) failed=$((failed + bad))
}

# beside COMMAND...: runs its parts beside those that follow it here, until `joined`; what they say is kept.
beside() {
    lane=$(mktemp -d)
    (
        passed=0 failed=0 amiss=
        "$@"
        printf %s "$amiss" >"$lane/amiss"
        echo "$passed $failed" >"$lane/count"
    ) </dev/null >"$lane/said" 2>&1 &
    lane_process=$!
}

# joined: waits for the parts beside, prints what they said and adds their counts; to break off is a failure.
joined() {
    local good=0 bad=1
    wait "$lane_process" || true
    cat "$lane/said"
    if [ -s "$lane/count" ]; then
        read -r good bad <"$lane/count"
        [ ! -s "$lane/amiss" ] || amiss+="$(cat "$lane/amiss")"$'\n'
    else
        echo "the parts beside broke off"
        amiss+="failed: the parts beside broke off"$'\n'
    fi
    rm -rf "$lane"
    passed=$((passed + good)) failed=$((failed + bad))
}

# What failed once more, the last line, and the status that goes with it.
finish() {
    printf %s "$amiss"
    echo "$passed passed, $failed failed"
    [ "$failed" -eq 0 ] && [ "$passed" -gt 0 ]
}
