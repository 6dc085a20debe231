# To be sourced by a test: what has passed and what has failed, and the last line, `N passed, M failed`.
# shellcheck shell=bash
passed=0
failed=0

finish() {
    printf '%s passed, %s failed\n' "$passed" "$failed"
    [ "$failed" -eq 0 ]
    exit
}

result() { # WHAT: by the status of the command before
    if [ "$?" -eq 0 ]; then
        passed=$((passed + 1))
        echo "ok      $1"
    else
        failed=$((failed + 1))
        echo "FAILED  $1"
    fi
}
