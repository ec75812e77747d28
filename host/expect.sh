# How the tests here count. Sourced by bash.
# shellcheck shell=bash
passed=0 failed=0

# Counts one test by whether a command succeeds.
expect() { # WHAT COMMAND..
    what=$1
    shift
    if "$@"; then
        passed=$((passed + 1))
    else
        failed=$((failed + 1))
        echo "failed: $what"
    fi
}

# Adds what a part's last line says, 'N passed, M failed'; a part with no such line has failed.
add_part() { # WHAT LOG
    if [[ $(tail -n 1 "$2") =~ ^([0-9]+)\ passed,\ ([0-9]+)\ failed$ ]]; then
        passed=$((passed + BASH_REMATCH[1])) failed=$((failed + BASH_REMATCH[2]))
        [ "${BASH_REMATCH[2]}" -eq 0 ] || { echo "failed: $1"; cat "$2"; }
    else
        failed=$((failed + 1))
        echo "failed: $1"
        cat "$2"
    fi
}

# Prints the last line, and answers whether nothing failed.
sum_up() {
    echo "$passed passed, $failed failed"
    [ "$failed" -eq 0 ]
}
