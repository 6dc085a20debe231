#!/usr/bin/env bash
# The library for each processor of kit/native/targets.sh, under an emulator. The random cases of host/differential.c are called there as on
# x86-64, and each is held against the reference there; running hashes of all that was given and all that came back, every byte of every
# slice, must be those of x86-64. Tries the rules that the module is held to, and the header on each target; shows that a changed byte of an
# archive is noticed; and measures the stack where there is no system. The last line is `N passed, M failed`.
#
#   host/test-targets.sh [CASES [SEED]]
#
# Programs are made by the toolchain's compiler and linker, with the C library of host/small-c. Emulators that are missing are installed.
set -u
CDPATH='' cd -- "$(dirname -- "${BASH_SOURCE[0]}")/.." || exit 1

cases=${1-10000} # fewer leave refusals unseen, which counts as a failure
seed=${2-1}
least=40000 # calls
root=$PWD
library=target/staticlib/libkrossvil.a
out=target/host/targets
passed=0
failed=0

result() { # STATUS WHAT
    if [ "$1" -eq 0 ]; then
        passed=$((passed + 1))
        echo "ok      $2"
    else
        failed=$((failed + 1))
        echo "FAILED  $2"
    fi
}

finish() {
    printf '%s passed, %s failed\n' "$passed" "$failed"
    [ "$failed" -eq 0 ]
    exit
}

give_up() { # WHAT: nothing more can be tried
    result 1 "$1"
    finish
}

# Adds the counts in the last line of a file. One without them, or whose status denies them, is a failure.
add_counts() { # FILE STATUS
    if [[ $(tail -n 1 "$1") =~ ^([0-9]+)\ passed,\ ([0-9]+)\ failed$ ]]; then
        passed=$((passed + BASH_REMATCH[1]))
        failed=$((failed + BASH_REMATCH[2]))
        [ "$2" -eq 0 ] || [ "${BASH_REMATCH[2]}" -gt 0 ] || failed=$((failed + 1))
    else
        failed=$((failed + 1))
    fi
}

# shellcheck source=host/x86-64.sh
. host/x86-64.sh
run_x86_64=("${run[@]}")
# shellcheck source=kit/native/tools.sh
. kit/native/tools.sh
# shellcheck source=kit/native/targets.sh
. kit/native/targets.sh
targets=("${linux_targets[@]}" "${bare_targets[@]}")

# ---- Programs for a target

# Sets, beside what describe does: start, the file that starts a program there; places, for the linker; run, words before a program that run
# it; package, which has the emulator.
describe_machine() { # TARGET
    local board=(-nographic -monitor none -serial none -semihosting -kernel)
    describe "$1"
    start=start-linux places=() package=qemu-user-static
    case $1 in
    arm64-linux) run=(qemu-aarch64-static) ;;
    armv7-linux) run=(qemu-arm-static) flags+=(-mcpu=cortex-a15) ;; # which can divide: host/small-c/divide.c asks for that
    riscv64-linux) run=(qemu-riscv64-static) ;;
    cortex-m3) run=(qemu-system-arm -M mps2-an385 "${board[@]}") package=qemu-system-arm ;;
    cortex-m4hf) run=(qemu-system-arm -M mps2-an386 "${board[@]}") package=qemu-system-arm ;;
    riscv32imc) run=(qemu-system-riscv32 -M virt -m 64M -bios none "${board[@]}") package=qemu-system-misc ;;
    esac
    case $1 in
    arm64-linux) [ "$(uname -m)" != aarch64 ] || run=() ;; # it is this processor's own
    cortex-*) start=start-board places=(-T host/small-c/board.ld --defsym=CODE=0 --defsym=STACK=0x21000000) ;;
    riscv32imc) start=start-board places=(-T host/small-c/board.ld --defsym=CODE=0x80000000 --defsym=STACK=0x81000000) ;;
    esac
}

install_emulators() {
    local missing=()
    for target in "${targets[@]}"; do
        describe_machine "$target"
        [ "${#run[@]}" -eq 0 ] || command -v "${run[0]}" >/dev/null || missing+=("$package")
    done
    install_packages "${missing[@]}"
}

compile() { # FLAGS AND FILES: for the target that was described last
    "$tools/bin/clang" --target="$triple" "${flags[@]}" --no-default-config -nostdinc -isystem "$root/host/small-c/include" -std=gnu11 \
        -fno-builtin -Wall -Wextra -Werror -I"$root/host" -I"$root/include" "$@"
}

# For the target that was described last: FOLDER/program, of these sources and the archive. wraps: the functions that the linker wraps.
build_program() { # FOLDER ARCHIVE FLAGS AND SOURCES
    rm -rf "$1"
    mkdir -p "$1"
    (cd "$1" && compile -O2 "${@:3}" -c "$root"/host/small-c/{memory,print,divide,"$start"}.c) &&
        "$tools/bin/ld.lld" -static --gc-sections --fatal-warnings "${places[@]}" "${wraps[@]}" "$1"/*.o "$2" -o "$1/program"
}

# What it prints goes to FOLDER/printed, its seconds of processor time to FOLDER/seconds.
run_program() { # FOLDER
    local TIMEFORMAT='%U %S' status
    { time timeout 600 "${run[@]}" "$1/program" >"$1/printed" 2>&1 </dev/null; } 2>"$1/time"
    status=$?
    awk '{ printf "%.1f\n", $1 + $2 }' "$1/time" >"$1/seconds"
    return "$status"
}

# ---- What is tried

# Without a warning, and so that each test of it passes.
try_header() { # TARGET
    local program folder
    describe_machine "$1"
    compile -pedantic -Wconversion -fsyntax-only host/header.c
    result $? "the header, for $1, without a warning"
    for program in header refusals; do
        folder=$out/$1-$program
        wraps=()
        build_program "$folder" "$made" '-DWORDS="0"' "$root/host/$program.c" && run_program "$folder"
        add_counts "$folder/printed" $?
    done
}

differential=("$root/host/differential.c" "$root/host/reference.c" "$root/kit/test/tap.c" -DHASHED -DWALK=3)
wrapped=()
while read -r name; do
    differential+=("-DHAS_$name")
    wrapped+=("--wrap=$name")
done < <(sed -n 's/^uint64_t \(krossvil_[a-z_]*\)(.*/\1/p' include/krossvil.h)

call_on_x86_64() { # CASES
    "$compiler" -std=gnu11 -O2 -Wall -Wextra -Werror -Ihost -Iinclude "${differential[@]}" "${wrapped[@]/#/-Wl,}" "$library" \
        "${link[@]}" -o "$out/x86-64" && "${run_x86_64[@]}" "$out/x86-64" "$1" "$seed" >"$out/x86-64-$1"
}

call_on() { # TARGET ARCHIVE CASES FOLDER
    describe_machine "$1"
    wraps=("${wrapped[@]}")
    build_program "$4" "$2" "${differential[@]}" "-DWORDS=\"$3\",\"$seed\"" && run_program "$4"
}

judge_calls() { # TARGET: of one that was called
    local printed=$out/$1/printed calls
    calls=$(sed -n 's/^calls \([0-9]*\) .*/\1/p' "$printed" | tail -n 1)
    diff "$out/x86-64-$cases" "$printed" | head -n 5
    cmp -s "$out/x86-64-$cases" "$printed" && [ "$calls" -ge "$least" ] && [ "$(cat "$out/$1/status")" -eq 0 ]
    result $? "$1: ${calls:-0} calls, with the results of x86-64; $(cat "$out/$1/seconds") s of processor time"
}

# As many targets at a time as there are processors.
try_cases() {
    for target in "${targets[@]}"; do
        while [ "$(jobs -rp | wc -l)" -ge "$(nproc)" ]; do wait -n; done
        { describe "$target"; call_on "$target" "$made" "$cases" "$out/$target"; echo "$?" >"$out/$target/status"; } &
    done
    wait
    for target in "${targets[@]}"; do
        judge_calls "$target"
    done
    cat "$out"/*/seconds | awk '{ sum += $1 } END { printf "%.0f s of processor time under emulators\n", sum }'
}

# Where the archive for arm64 first says 28, as the upper half of what comes back, it says 27: movz, whose number stands from bit 5 on.
change_byte() { # FROM TO
    local at byte
    at=$(grep -obUaP -m 1 '[\x80-\x9f]\x03\xc0\xd2' "$1" | head -n 1 | cut -d : -f 1)
    [ -n "$at" ] || return
    byte=$(od -A n -t u1 -j "$at" -N 1 "$1")
    cp "$1" "$2"
    printf '%b' "\\x$(printf %x $((byte - 32)))" | dd of="$2" bs=1 seek="$at" conv=notrunc status=none
}

# Few cases are enough. The program comes to its end, and the hashes are others.
try_changed_byte() {
    local few=2000 folder=$out/changed
    call_on_x86_64 $few
    describe arm64-linux
    change_byte "$made" "$out/changed.a" && [ "$(cmp -l "$made" "$out/changed.a" | wc -l)" = 1 ]
    result $? 'one byte of the archive for arm64-linux is changed: it says 27 where it said 28'
    call_on arm64-linux "$out/changed.a" $few "$folder"
    grep -q '^calls' "$folder/printed" && tail -n 1 "$folder/printed" | grep -q ' passed, ' &&
        ! cmp -s <(grep '^calls' "$folder/printed") <(grep '^calls' "$out/x86-64-$few")
    result $? "it is noticed: $(grep '^mismatches' "$folder/printed")"
}

# The most of each function, in order of names.
most_stack() { # FILE
    awk '/ bytes of stack/ && $2 > most[$1] { most[$1] = $2 } END { for (name in most) print name, most[name] }' "$1" | sort
}

try_stack() {
    local folder
    for target in "${bare_targets[@]}"; do
        describe_machine "$target"
        folder=$out/$target-stack
        wraps=()
        build_program "$folder" "$made" '-DWORDS="0"' "$root/host/stack.c" && run_program "$folder"
        add_counts "$folder/printed" $?
        grep WRONG "$folder/printed"
        { echo "bytes $target" && most_stack "$folder/printed"; } >"$folder/most"
        if [ -e "$out/stack" ]; then join "$out/stack" "$folder/most"; else cat "$folder/most"; fi >"$out/stack.more"
        mv "$out/stack.more" "$out/stack"
    done
    awk '{ printf "%-20s", $1; for (k = 2; k <= NF; k++) printf " %11s", $k; print "" }' "$out/stack"
}

rm -rf "$out"
mkdir -p "$out" || exit 1
install_missing || give_up 'what is missing could not be installed'
install_emulators || give_up 'the emulators could not be installed'
echo '== the archives'
kit/native/build x86-64 "${targets[@]}" || give_up 'an archive could not be built'
echo '== the rules for the module'
kit/native/try | tee "$out/rules"
add_counts "$out/rules" "${PIPESTATUS[0]}"
echo '== the header'
for target in "${targets[@]}"; do
    try_header "$target"
done
echo "== the same calls as on x86-64: $cases cases, seed $seed"
call_on_x86_64 "$cases"
result $? "x86-64: $(tail -n 1 "$out/x86-64-$cases")"
try_cases
echo '== a changed byte'
try_changed_byte
echo '== the stack where there is no system'
try_stack
finish
