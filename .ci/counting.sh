# Counts checks. To be sourced by bash scripts, which end by `verdict`.
passed=0 failed=0

# One check more: what it is called, and whether its command succeeded.
check() {
    local name=$1
    shift
    if "$@"; then
        passed=$((passed + 1))
        echo "ok: $name"
    else
        failed=$((failed + 1))
        echo "FAILED: $name"
    fi
}

# A run that ends in its own line 'N passed, M failed'.
counted() {
    local name=$1 last
    shift
    "$@" | tee target.log
    local status=${PIPESTATUS[0]}
    last=$(tail -n 1 target.log)
    rm -f target.log
    if [[ $last =~ ^([0-9]+)\ passed,\ ([0-9]+)\ failed$ ]]; then
        passed=$((passed + BASH_REMATCH[1]))
        failed=$((failed + BASH_REMATCH[2]))
        if [ "$status" -ne 0 ] && [ "${BASH_REMATCH[2]}" -eq 0 ]; then failed=$((failed + 1)); fi
    else
        failed=$((failed + 1))
        echo "FAILED: $name"
    fi
}

# The last line, and whether nothing failed.
verdict() {
    echo "$passed passed, $failed failed"
    [ "$failed" -eq 0 ]
}
