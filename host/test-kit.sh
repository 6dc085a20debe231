#!/usr/bin/env bash
# The kit: builds the library as WebAssembly, the page and the package, and runs all tests of kit/, which hold WebAssembly against the native
# library, drive the page in a browser, try the package, and hold the page against the one that is kept. What is missing of Debian's
# packages is installed.
# The last line is 'N passed, M failed'; the exit status is 0 if none failed.
set -u
CDPATH='' cd -- "$(dirname -- "${BASH_SOURCE[0]}")/.." || exit 1

log=$(mktemp) || exit 1
trap 'rm -f "$log"' EXIT
passed=0
failed=0

finish() {
    echo "$passed passed, $failed failed"
    [ "$failed" -eq 0 ]
    exit
}

# shellcheck source=host/x86-64.sh
. host/x86-64.sh

# The programs that the kit and its tests call, each with the package that has it.
tools=(node:nodejs tsc:node-typescript chromium:chromium rsvg-convert:librsvg2-bin dot:graphviz xmllint:libxml2-utils script:bsdutils
    groff:groff-base pdftotext:poppler-utils lintian:lintian rustc:rustc)

lacking() { # the tools that are not here
    for tool in "${tools[@]}"; do
        command -v "${tool%%:*}" >/dev/null || echo "$tool"
    done
}

# Each program that is still not here is a failure with its name. Without Node nothing else can be tried.
install_tools() {
    local missing tool
    mapfile -t missing < <(lacking)
    install_packages "${missing[@]#*:}"
    for tool in $(lacking); do
        echo "FAILED  ${tool%%:*} is missing, and the package ${tool#*:} could not be installed"
        failed=$((failed + 1))
    done
    if ! install_missing; then
        echo "FAILED  the C compiler for x86-64 is missing, and could not be installed"
        failed=$((failed + 1))
    fi
    command -v node >/dev/null || finish
}

timed() { # COMMAND...: says how many seconds it took
    local start=$SECONDS status
    "$@"
    status=$?
    echo "-- $((SECONDS - start)) s"
    return "$status"
}

build() { # WHAT COMMAND...: what follows needs it
    echo "== $1"
    if timed "${@:2}"; then
        passed=$((passed + 1))
    else
        echo "FAILED  $1"
        failed=$((failed + 1))
        finish
    fi
}

part() { # COMMAND...: ends with a line 'N passed, M failed', which is added up
    echo "== $*"
    local start=$SECONDS status
    "$@" 2>&1 | tee "$log"
    status=${PIPESTATUS[0]}
    echo "-- $((SECONDS - start)) s"
    if [[ $(tail -n 1 "$log") =~ ^([0-9]+)\ passed,\ ([0-9]+)\ failed$ ]]; then
        passed=$((passed + BASH_REMATCH[1]))
        failed=$((failed + BASH_REMATCH[2]))
        [ "$status" -eq 0 ] || [ "${BASH_REMATCH[2]}" -gt 0 ] || failed=$((failed + 1))
    else
        failed=$((failed + 1))
    fi
}

# It builds the library as WebAssembly and the page, and ends by naming the page.
first_command() {
    rm -f target/kit/krossvil.html
    ./classroom | tee "$log"
    grep -qx 'accepted end=12 cycles=4 moves=2 state=0 output=0 left=4 longest=3' "$log" &&
        grep -qx 'refused 28 at 76' "$log" &&
        tail -n 1 "$log" | grep -qx 'the page, to be opened in a browser: file:///.*/target/kit/krossvil.html' &&
        [ -s target/kit/krossvil.html ]
}

install_tools
build 'the first command' first_command
build 'the package' kit/deb/build krossvil
part kit/test/compare
part kit/test/run
part kit/deb/try
part kit/dist/try
finish
