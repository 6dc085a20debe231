#!/usr/bin/env bash
# A second opinion by `spin` on models of the automaton (docs/MODELS.md): kit/test/models/second-opinion. What is missing is installed.
# The last line is `N passed, M failed`.
set -u
CDPATH='' cd -- "$(dirname -- "${BASH_SOURCE[0]}")/.." || exit 1

# shellcheck source=host/x86-64.sh
. host/x86-64.sh

lacking() { # packages that are not here
    local each
    for each in node:nodejs spin:spin; do
        command -v "${each%%:*}" >/dev/null || echo "${each#*:}"
    done
}

mapfile -t missing < <(lacking)
install_packages "${missing[@]}" && install_missing
if [ -n "$(lacking)" ]; then
    echo "FAILED  could not install $(lacking | xargs)"
    echo '0 passed, 1 failed'
    exit 1
fi
if ! kit/native/build wasm; then
    echo '0 passed, 1 failed'
    exit 1
fi
exec kit/test/models/second-opinion
