#!/usr/bin/env bash
# What the command takes to check journals, beside a loop in C. host/test-kit.sh has the other tests of the kit.
# The last line is `N passed, M failed`.
# Alone: what runs beside it slows the command more than the loop.
set -u
CDPATH='' cd -- "$(dirname -- "${BASH_SOURCE[0]}")/.." || exit 1

# shellcheck source=host/x86-64.sh
. host/x86-64.sh
if ! { install_missing && { command -v node >/dev/null || install_packages nodejs; } && kit/native/build x86-64 wasm && node kit/page/build; }; then
    echo '0 passed, 1 failed'
    exit 1
fi
exec kit/test/run kit/test/command-time.test.js
