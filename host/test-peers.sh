#!/usr/bin/env bash
# Holds what host/bench measures the library against, plain C (host/plain*.c) and tuned C (host/tuned*.c), against the reference: each
# stands in the library's place in host/differential.c. Where tuned C has no entry plain C stands for it. Then the reference with a fault
# stands there, which must be noticed.
# The last line is `N passed, M failed`.
#
#   host/test-peers.sh [CASES [SEED]]
set -u
CDPATH='' cd -- "$(dirname -- "${BASH_SOURCE[0]}")/.." || exit 1
cases=${1-20000}
seed=${2-1}
out=target/host/peers
mkdir -p "$out" || exit 1
# shellcheck source=host/x86-64.sh
. host/x86-64.sh
# shellcheck source=host/counting.sh
. host/counting.sh
install_missing || exit 1

entries() { # HEADER: the entries that it declares
    sed -n 's/^uint64_t [a-z]*_\([a-z_]*\)(.*/\1/p' "$1" | sort
}

# Words by which the test finds the entries of a peer under the names of the second reference.
names() { # plain|tuned
    local entry from tuned
    tuned=$([ "$1" = plain ] || entries host/tuned.h)
    for entry in $(entries host/reference.h); do
        from=plain
        [[ $'\n'$tuned$'\n' != *$'\n'$entry$'\n'* ]] || from=tuned
        echo "-Dsecond_$entry=${from}_$entry"
    done
}

compile() { # FLAGS AND FILES
    "$own" -std=gnu11 -Wall -Wextra -Werror -Ihost -Iinclude "$@"
}

# As host/bench compiles them, but that tuned C may hand over only what is refused.
peers=("$out/refusing.o")
mapfile -t refusing < <(entries host/tuned.h | sed 's/.*/-Dplain_&=refusing_&/')
compile -O1 -c host/refusing.c -o "$out/refusing.o" || exit 1
for each in host/plain*.c; do
    peers+=("$out/$(basename "$each" .c).o")
    compile -O3 -c "$each" -o "${peers[-1]}" || exit 1
done
for each in host/tuned*.c; do
    peers+=("$out/$(basename "$each" .c).o")
    compile -O3 "${refusing[@]}" -c "$each" -o "${peers[-1]}" || exit 1
done

build() { # NAME PEER FLAGS AND FILES: the test with the peer in the library's place
    local words
    mapfile -t words < <(names "$2")
    compile -O1 -DSELF "${words[@]}" "${@:3}" host/differential.c -o "$out/$1"
}

tries() { # NAME CASES SEED MISMATCHES: that many, as a pattern; to break off is none
    "$out/$1" "$2" "$3" >"$out/$1.log" 2>&1
    grep -x "mismatches: $4" "$out/$1.log" || { tail -n 40 "$out/$1.log"; return 1; }
}

all_came() { # NAME: the number of every refusal was given at least once
    tail -n 1 "$out/$1.log" | grep -x '[0-9]* passed, 0 failed'
}

for each in plain tuned; do
    build "$each" "$each" "${peers[@]}" host/reference.c && tries "$each" "$cases" "$seed" 0 && all_came "$each"
    result "$each C gives the reference's answers"
    build "$each-fault" "$each" "${peers[@]}" -DFAULT=3 host/reference.c && tries "$each-fault" 1000 1 '[1-9][0-9]*'
    result "$each C differs from a reference whose holds end too soon"
done
sanitize=(-g '-fsanitize=address,undefined' -fno-sanitize-recover=all)
build sanitized tuned "${sanitize[@]}" host/plain*.c host/tuned*.c host/reference.c && tries sanitized $((cases / 8)) $((seed + 1)) 0
result "tuned C, and plain C under it, read and write no byte that they were not given"
finish
