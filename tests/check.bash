# For tests outside Rattle: 'check NAME COMMAND..' is one test. If it fails, so does check, and bad is 1.
bad=0

check() {
    local name=$1 log
    shift
    mkdir -p target/tests
    log=target/tests/log
    # What a test prints last says what was seen.
    if "$@" >"$log" 2>&1; then
        echo "ok $name: $(tail -n 1 "$log")"
    else
        echo "not ok $name: $(tail -n 1 "$log" | cut -c 1-500)"
        cut -c 1-2000 "$log" | head -n 40 | sed 's/^/    /'
        bad=1
        return 1
    fi
}
