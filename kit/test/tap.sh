# To be sourced behind host/x86-64.sh: the program that calls the archive on the cases of host/differential.c, and writes each call to file
# descriptor 3 (kit/test/tap.c).
# shellcheck shell=bash disable=SC2154

build_tap() { # TO
    local function flags=()
    while read -r function; do
        flags+=("-Wl,--wrap=$function" "-DHAS_$function")
    done < <(sed -n 's/^uint64_t \(krossvil_[a-z_]*\)(.*/\1/p' include/krossvil.h)
    "$compiler" -std=gnu11 -O2 -Wall -Wextra -Werror -Ihost -Iinclude "${flags[@]}" -DWALK=3 host/differential.c host/reference.c kit/test/tap.c \
        target/staticlib/libkrossvil.a "${link[@]}" -o "$1"
}
