#!/usr/bin/env bash
# Holds the library against the reference in C (host/differential.c), then shows that the same test catches each of the
# reference's faults. Tries the header, looks at what the archive needs, runs the example hosts, and measures how much stack the functions
# need.
# The last line is `N passed, M failed`.
#
#   host/test-differential.sh [--self] [CASES [SEED]]
#
# --self: a second build of the reference stands in for the library, which is then not needed.
set -u
CDPATH='' cd -- "$(dirname -- "${BASH_SOURCE[0]}")/.." || exit 1

self=no
if [ "${1-}" = --self ]; then
    self=yes
    shift
fi
cases=${1-100000}
seed=${2-1}
sanitized_cases=$((cases < 20000 ? cases : 20000))
fault_cases=15000
library=target/staticlib/libkrossvil.a
out=target/host
passed=0
failed=0

finish() {
    printf '%s passed, %s failed\n' "$passed" "$failed"
    [ "$failed" -eq 0 ]
    exit
}

stop() { # MESSAGE: nothing more can be tried
    printf '%s\n' "$1"
    failed=$((failed + 1))
    finish
}

# shellcheck source=host/x86-64.sh
. host/x86-64.sh
install_missing || stop "could not install what is missing"
echo | "$own" -xc++ -fsyntax-only - 2>/dev/null || install_packages g++ || stop "could not install g++"

mkdir -p "$out" || stop "could not make $out"
if [ "$self" = no ]; then
    kit/native/build x86-64 || stop "the library was not built"
fi

compile() { # FLAGS AND FILES
    "$compiler" -std=c11 -O2 -Wall -Wextra -Werror -Ihost -Iinclude "$@"
}

# The test against what stands on the other side: the library, or with --self a second reference.
build() { # NAME FLAGS
    local name=$1
    shift
    compile "$@" -c host/reference.c -o "$out/$name-reference.o" || return
    if [ "$self" = yes ]; then
        compile "$@" -DSECOND -c host/reference.c -o "$out/$name-second.o" &&
            compile "$@" -DSELF host/differential.c "$out/$name-reference.o" "$out/$name-second.o" \
                "${link[@]}" -o "$out/$name"
    else
        compile "$@" host/differential.c "$out/$name-reference.o" "$library" "${link[@]}" -o "$out/$name"
    fi
}

# Runs a built test and adds its counts; one that breaks off, or whose status denies its counts, is a failure more.
try() { # NAME CASES SEED
    local status last log="$out/$1.log"
    "${run[@]}" "$out/$1" "$2" "$3" >"$log" 2>&1
    status=$?
    cat "$log"
    last=$(tail -n 1 "$log")
    if [[ $last =~ ^([0-9]+)\ passed,\ ([0-9]+)\ failed$ ]]; then
        passed=$((passed + BASH_REMATCH[1]))
        failed=$((failed + BASH_REMATCH[2]))
        if [ "$status" -ne 0 ] && [ "${BASH_REMATCH[2]}" -eq 0 ]; then
            failed=$((failed + 1))
        fi
    else
        echo "broke off with status $status"
        failed=$((failed + 1))
    fi
}

echo "== differential: $cases cases, seed $seed"
build differential || stop "did not build"
try differential "$cases" "$seed"

if [ "$native" = yes ]; then
    echo "== with sanitizers: $sanitized_cases cases, seed $((seed + 1))"
    build sanitized -g -fsanitize=address,undefined -fno-sanitize-recover=all || stop "did not build"
    try sanitized "$sanitized_cases" "$((seed + 1))"
fi

# What the header's test and the example hosts call: the library, or with --self the second reference by the library's names.
called=("$library")
if [ "$self" = yes ]; then
    called=("$out/differential-second.o")
    for entry in check_table check_journal run reaction reaction_moves reaction_tight reaction_tight_moves convert_table read_stamped check_short shorten lengthen salvage \
        report_add live watch; do
        called+=("-Dkrossvil_$entry=second_$entry")
    done
fi

succeeds() { # WHAT COMMAND...
    if "${@:2}"; then
        echo "$1"
        passed=$((passed + 1))
    else
        echo "WRONG: $1"
        failed=$((failed + 1))
    fi
}

echo "== the header"
strict=(-Wall -Wextra -pedantic -Wconversion -Werror -Iinclude -fsyntax-only)
for standard in c99 c11 c2x c++17; do
    succeeds "as $standard without a warning" "$own" -x "${standard%%[0-9]*}" -std="$standard" "${strict[@]}" host/header.c
done
for each in header refusals; do
    compile "host/$each.c" "${called[@]}" "${link[@]}" -o "$out/$each" || stop "did not build"
    try "$each" 0 0
done
untried=$(sed -n '/^enum krossvil_refusal/,/^}/s/^ *\(KROSSVIL_[A-Z_]*\) = .*/\1/p' include/krossvil.h | while read -r name; do
    grep -qw "$name" host/header.c host/refusals.c || echo "$name"
done)
succeeds "refusals whose name is not tried: ${untried:-none}" [ -z "$untried" ]

if [ "$self" = no ]; then
    echo "== what the archive needs"
    needed=$("${compiler%gcc}nm" -u -f posix "$library" | awk 'NF > 1 { print $1 }' | sort -u | xargs)
    succeeds "memset only: $needed" [ "$needed" = memset ]
fi

echo "== the example host"
compile examples/host.c "${called[@]}" "${link[@]}" -o "$out/example" || stop "did not build"
hosts() { # FOLDER STATUS: on its table and stimulus the host prints its host.txt and ends with the status
    "${run[@]}" "$out/example" "$1/table.bin" "$1/stimulus.bin" >"$out/example.log"
    if [ "$?" -eq "$2" ] && diff "$1/host.txt" "$out/example.log"; then
        cat "$out/example.log"
        passed=$((passed + 1))
    else
        echo "the example host did not end with status $2, or printed something else than $1/host.txt"
        failed=$((failed + 1))
    fi
}
hosts examples/classroom 0
hosts examples/gas-burner 1 # the calculator takes no timers

keeps() { # PROGRAM WORDS: it does not write over the file that it reads, under its own name or another
    local name
    ln -sf file.bin "$out/link.bin"
    for name in file.bin link.bin; do
        "${run[@]}" "$out/$1" "${@:2}" "$out/file.bin" "$out/$name" 2>"$out/kept.txt"
        [ "$?" -eq 2 ] && grep -q 'would be lost; name another file$' "$out/kept.txt" || return 1
    done
}

rewrites() { # 'PROGRAM WORDS' FILE LINE NEW: run with the words on the file it gives the line and the bytes of NEW, or writes nothing
    local printed words
    read -ra words <<<"$1"
    cp "$2" "$out/file.bin"
    cp "$2" "$out/new.bin"
    printed=$("${run[@]}" "$out/${words[0]}" "${words[@]:1}" "$out/file.bin" "$out/new.bin")
    if [ "$printed" = "$3" ] && cmp "$out/new.bin" "$4" && keeps "${words[@]}" && cmp "$out/file.bin" "$2"; then
        echo "$2: $printed"
        passed=$((passed + 1))
    else
        echo "$2: '$printed', and not '$3' with the bytes of $4"
        failed=$((failed + 1))
    fi
}

echo "== the example of a check"
compile examples/check.c "${called[@]}" "${link[@]}" -o "$out/check" || stop "did not build"
checks() { # STATUS LINE WORDS: with these words it prints the line and ends with the status
    local status=$1 line=$2 printed
    shift 2
    printed=$("${run[@]}" "$out/check" "$@")
    if [ "$?" -eq "$status" ] && [ "$printed" = "$line" ]; then
        echo "$*: $printed"
        passed=$((passed + 1))
    else
        echo "check $*: '$printed', and not '$line' with status $status"
        failed=$((failed + 1))
    fi
}
accepted='accepted end=12 cycles=4 moves=2 state=0 output=0 left=4 longest=3'
{ head -c 63 examples/short-journal/short.bin; printf '\001'; tail -c +65 examples/short-journal/short.bin; } >"$out/changed.bin"
checks 0 "$accepted" examples/short-journal/table.bin examples/short-journal/short.bin
checks 0 "$accepted" examples/short-journal/table.bin examples/short-journal/journal.bin
checks 1 'refused 28 at 58' examples/short-journal/table.bin "$out/changed.bin"
checks 1 'refused 28 at 76' examples/changed-verdict/table.bin examples/changed-verdict/journal.bin
checks 1 'refused 21 at 4' examples/short-clock/table.bin examples/short-clock/stamped.bin
checks 1 'refused 11 at 40' examples/idle-sets/old-table.bin examples/short-journal/short.bin

echo "== the example converter"
compile examples/convert.c "${called[@]}" "${link[@]}" -o "$out/convert" || stop "did not build"
rewrites convert examples/idle-sets/old-table.bin 'changed=1' examples/idle-sets/table.bin
rewrites convert examples/idle-sets/table.bin 'changed=0' examples/idle-sets/table.bin
rewrites convert examples/classroom-timers/table.bin 'refused 2 at 26' examples/classroom-timers/table.bin
rewrites convert examples/classroom/journal.bin 'refused 2 at 0' examples/classroom/journal.bin

echo "== the example reader of stamped journals"
compile examples/unstamp.c "${called[@]}" "${link[@]}" -o "$out/unstamp" || stop "did not build"
rewrites unstamp examples/short-clock/stamped.bin 'bytes=123' examples/short-clock/journal.bin
rewrites unstamp examples/short-clock/journal.bin 'refused 21 at 4' examples/short-clock/journal.bin
rewrites unstamp examples/classroom/stimulus.bin 'refused 21 at 0' examples/classroom/stimulus.bin

echo "== the example of short journals"
compile examples/shorten.c "${called[@]}" "${link[@]}" -o "$out/shorten" || stop "did not build"
shorten="shorten examples/short-journal/table.bin"
rewrites "$shorten" examples/short-journal/journal.bin 'bytes=93' examples/short-journal/short.bin
rewrites "$shorten" examples/short-journal/short.bin 'bytes=123' examples/short-journal/journal.bin
rewrites "$shorten" examples/changed-verdict/journal.bin 'refused 28 at 76' examples/changed-verdict/journal.bin
rewrites "$shorten" "$out/changed.bin" 'refused 28 at 58' "$out/changed.bin"
rewrites "$shorten" examples/short-clock/stamped.bin 'refused 21 at 4' examples/short-clock/stamped.bin
rewrites 'shorten examples/idle-sets/old-table.bin' examples/short-journal/short.bin 'refused 11 at 40' examples/short-journal/short.bin

echo "== the example of torn journals"
compile examples/salvage.c "${called[@]}" "${link[@]}" -o "$out/salvage" || stop "did not build"
salvage="salvage examples/torn-journal/table.bin"
end_at() { printf '\037\000\004\000\000\000%b' "\\0$1"; } # THREE OCTAL DIGITS: an end field with this time
{ cat examples/classroom/journal.bin; printf '\000'; } >"$out/followed.bin"
{ head -c 116 examples/classroom/journal.bin; end_at 013; } >"$out/ended-at-11.bin"
{ head -c 68 examples/classroom/journal.bin; end_at 006; } >"$out/ended-at-6.bin"
{ head -c 4 examples/classroom/journal.bin; end_at 000; } >"$out/ended-at-0.bin"
head -c 3 examples/classroom/journal.bin >"$out/no-opening.bin"
rewrites "$salvage" examples/torn-journal/torn.bin 'kept=92 dropped=21 refused 20 at 108' examples/torn-journal/salvaged.bin
rewrites "$salvage" examples/torn-journal/salvaged.bin 'kept=99 dropped=0' examples/torn-journal/salvaged.bin
rewrites "$salvage" examples/classroom/journal.bin 'kept=123 dropped=0' examples/classroom/journal.bin
rewrites "$salvage" "$out/followed.bin" 'kept=116 dropped=8 refused 22 at 123' "$out/ended-at-11.bin"
rewrites "$salvage" examples/changed-verdict/journal.bin 'kept=68 dropped=55 refused 28 at 76' "$out/ended-at-6.bin"
rewrites "$salvage" examples/short-clock/stamped.bin 'kept=4 dropped=89 refused 21 at 4' "$out/ended-at-0.bin"
rewrites "$salvage" "$out/no-opening.bin" 'refused 20 at 0' "$out/no-opening.bin"
rewrites "$salvage" examples/short-journal/short.bin 'refused 21 at 0' examples/short-journal/short.bin
rewrites 'salvage examples/idle-sets/old-table.bin' examples/torn-journal/torn.bin 'refused 11 at 40' examples/torn-journal/torn.bin

echo "== the example of a season"
compile examples/season.c "${called[@]}" "${link[@]}" -o "$out/season" || stop "did not build"
report_of() { # FILE: the report in what the example printed, without the lines of the journals
    sed -n '/^journals=/,$p' "$1"
}
season() { # STATUS PRINTED WORDS: in examples/season, run with these words, it ends with the status and prints this file
    local status=$1 printed=$2 log="$PWD/$out/season.log" program="$PWD/$out/season"
    shift 2
    (cd examples/season && "${run[@]}" "$program" "$@") >"$log"
    if [ "$?" -eq "$status" ] && diff "$printed" "$log"; then
        cat "$log"
        passed=$((passed + 1))
    else
        echo "season $*: it did not end with status $status, or printed something else than $printed"
        failed=$((failed + 1))
    fi
}
{ echo 'late.bin: added'; echo 'early.bin: added'; report_of examples/season/report.txt; } >"$out/other-order.txt"
printf '%s\n' '../torn-journal/salvaged.bin: added' 'journals=1' 'state 0: slots=3 entries=1 by input 1 2' \
    'state 1: slots=6 entries=1 by input 6 0' >"$out/of-salvaged.txt"
printf '%s\n' 'journals=0' 'state 0: slots=0 entries=0 by input 0 0' 'state 1: slots=0 entries=0 by input 0 0' >"$out/of-none.txt"
echo '../idle-sets/old-table.bin: refused 11 at 40' >"$out/of-old-table.txt"
season 1 examples/season/report.txt table.bin early.bin torn.bin late.bin
season 0 "$out/other-order.txt" table.bin late.bin early.bin
season 0 "$out/of-salvaged.txt" table.bin ../torn-journal/salvaged.bin
season 0 "$out/of-none.txt" table.bin
season 1 "$out/of-old-table.txt" ../idle-sets/old-table.bin early.bin

echo "== the example of several moves"
compile examples/moves.c "${called[@]}" "${link[@]}" -o "$out/moves" || stop "did not build"
moves() { # STATUS PRINTED WORDS: run with these words, it ends with the status and prints this file
    local status=$1 printed=$2
    shift 2
    "${run[@]}" "$out/moves" "$@" >"$out/moves.log"
    if [ "$?" -eq "$status" ] && diff "$printed" "$out/moves.log"; then
        cat "$out/moves.log"
        passed=$((passed + 1))
    else
        echo "moves $*: it did not end with status $status, or printed something else than $printed"
        failed=$((failed + 1))
    fi
}
idle=examples/back-to-idle
printf '%s\n' 'within 45 to the states of the set 17' 'row 0: 0 2 9 34 0' 'row 1: 0 36 43 34 0' \
    'path: state 2 input 0 state 3' >"$out/two-moves.txt"
{ sed 4q "$idle/moves.txt"; echo 'row 3: 0 52 59 50 16'; sed -n 5p "$idle/moves.txt"; } >"$out/four-moves.txt"
printf '%s\n' 'within 2 to the states of the set 31' 'path: none' >"$out/no-moves.txt"
printf '%s\n' 'within 2 to the states of the set 31' 'row 0: 0 0 0 0 0' 'path: none' >"$out/stop-and-go.txt"
moves 0 "$idle/moves.txt" "$idle/table.bin" 31 1 3
moves 0 "$out/two-moves.txt" "$idle/table.bin" 31 1 2
moves 0 "$out/four-moves.txt" "$idle/table.bin" 31 1 4
moves 0 "$out/no-moves.txt" "$idle/table.bin" 31 1 0
moves 0 "$out/stop-and-go.txt" "$idle/table.bin" 31 3 1
refused() { # REFUSAL WORDS
    echo "refused $1" >"$out/refused.txt"
    shift
    moves 1 "$out/refused.txt" "$@"
}
refused '10 at 8' "$idle/table.bin" 30 1 3
refused '9 at 0' "$idle/table.bin" 32 1 33
refused '9 at 1' "$idle/table.bin" 31 4 33
refused '32 at 0' "$idle/table.bin" 30 1 33
refused '14 at 0' examples/gas-burner/table.bin 32 1 33
refused '11 at 40' examples/idle-sets/old-table.bin 4 4 33

echo "== the example of tight times"
compile examples/tight.c "${called[@]}" "${link[@]}" -o "$out/tight" || stop "did not build"
tight() { # LINE WORDS: with these words it prints the line
    local printed line=$1
    shift
    printed=$("${run[@]}" "$out/tight" "$@")
    if [ "$printed" = "$line" ]; then
        echo "$*: $printed"
        passed=$((passed + 1))
    else
        echo "tight $*: '$printed', and not '$line'"
        failed=$((failed + 1))
    fi
}
tight 'time=14 target=1 tight=12' examples/tight-times/twelve/table.bin 3 1
tight 'time=6 target=2 tight=5' examples/tight-times/five/table.bin 3 2
tight 'time=3 target=2 tight=3' examples/classroom/table.bin 2 2
tight 'refused 10 at 2' examples/classroom/table.bin 2 1
tight 'refused 14 at 0' examples/classroom-timers/table.bin 3 1
tight 'time=61 target=1 tight=57' examples/back-to-idle/table.bin 31 1 3
tight 'time=11 target=25 tight=9' examples/back-to-idle/table.bin 31 1 1
tight 'time=2 target=31 tight=2' examples/back-to-idle/table.bin 31 1 0
tight 'refused 32 at 0' examples/back-to-idle/table.bin 31 1 33
tight 'refused 10 at 1' examples/back-to-idle/table.bin 1 2 3

echo "== files and numbers that cannot be read"
turns_down() { # LINE PROGRAM WORDS: with these words it prints nothing, says the line on the error stream and ends with 2
    local line=$1 program=$2 printed
    shift 2
    printed=$("${run[@]}" "$out/$program" "$@" 2>"$out/said.txt")
    if [ "$?" -eq 2 ] && [ -z "$printed" ] && [ "$(cat "$out/said.txt")" = "$line" ]; then
        passed=$((passed + 1))
    else
        echo "$program $*: '$printed' and '$(cat "$out/said.txt")', and not '$line' alone with status 2"
        failed=$((failed + 1))
    fi
}
class=examples/classroom/table.bin
rm -f "$out/new.bin"
for reader in 'example X X' "example $class X" 'check X X' "check $class X" 'convert X N' 'unstamp X N' 'shorten X X N' \
    "shorten $class X N" 'salvage X X N' "salvage $class X N" 'season X' "season $class X" 'moves X 3 1 1' 'tight X 3 1' 'tight X 3 1 1'; do
    read -ra words <<<"${reader/%N/$out/new.bin}"
    turns_down "$out cannot be read" "${words[@]/#X/$out}" # a folder
    turns_down "$out/none cannot be opened" "${words[@]/#X/$out/none}"
done
for word in x '' 1x -1 ' 1' +1 4294967296; do
    turns_down "'$word' is not a number of 32 bits" tight "$class" "$word" 1
    turns_down "'$word' is not a number of 32 bits" tight "$class" 3 "$word"
    turns_down "'$word' is not a number of 32 bits" tight "$class" 3 1 "$word"
    for at in 0 1 2; do
        numbers=(3 1 1)
        numbers[at]=$word
        turns_down "'$word' is not a number of 32 bits" moves "$class" "${numbers[@]}"
    done
done
[ ! -e "$out/new.bin" ] || stop "what could not be read was written"

if [ "$self" = no ]; then
    echo "== the stack that the functions need"
    compile -D_DEFAULT_SOURCE host/stack.c "$library" "${link[@]}" -o "$out/stack" || stop "did not build"
    try stack 0 0
fi

# Each fault, in a second reference on the library's side. Only a mismatch counts as caught, and the first is enough. No library: this
# processor's own compiler.
echo "== faults: $fault_cases cases each, or up to the first mismatch"
compiler=$own
link=()
run=()
compile -c host/reference.c -o "$out/reference.o" && compile -DSELF -DFIRST -c host/differential.c -o "$out/self.o" ||
    stop "did not build"
try_fault() { # NUMBER: its log is missing if it did not build. It is built faster than it would run faster.
    local program="$out/fault-$1"
    compile -O0 -DSECOND -DFAULT="$1" -c host/reference.c -o "$program.o" &&
        "$compiler" "$out/self.o" "$out/reference.o" "$program.o" "${link[@]}" -o "$program" &&
        "${run[@]}" "$program" "$fault_cases" 1 >"$program.log" 2>&1
    rm -f "$program" "$program.o"
}

judge_fault() { # NUMBER MEANING: of one that was tried
    local found log="$out/fault-$1.log"
    if [ ! -e "$log" ]; then
        echo "fault $1 did not build"
        failed=$((failed + 1))
        return
    fi
    found=$(sed -n 's/^mismatches: //p' "$log")
    if [ "$1" -eq 0 ] && [ "$found" = 0 ]; then
        printf 'fault %2s: no mismatch, as it should be: %s\n' "$1" "$2"
        passed=$((passed + 1))
    elif [ "$1" -ne 0 ] && [ "${found:-0}" -gt 0 ]; then
        printf 'fault %2s: caught: %s; %s\n' "$1" "$2" "$(sed -n 's/^first mismatch: //p' "$log")"
        passed=$((passed + 1))
    else
        printf 'fault %2s: WRONG, %s mismatches: %s\n' "$1" "${found:-no count of}" "$2"
        failed=$((failed + 1))
    fi
}

# As many at a time as there are processors.
rm -f "$out"/fault-*
mapfile -t faults < <(echo '0 none' &&
    sed -n '/-DFAULT=n/,/\*\//s/^ \*  *\([0-9][0-9]*\)  \(.*\)$/\1 \2/p' host/reference.c | sed 's, \*/$,,')
for each in "${faults[@]}"; do
    while [ "$(jobs -rp | wc -l)" -ge "$(nproc)" ]; do wait -n; done
    try_fault "${each%% *}" &
done
wait
for each in "${faults[@]}"; do
    judge_fault "${each%% *}" "${each#* }"
done
tried=$((${#faults[@]} - 1))
highest=$(sed -n 's/.*FAULT > \([0-9][0-9]*\).*/\1/p' host/reference.c)
[ "$tried" = "$highest" ] || stop "$tried faults tried of $highest"
finish
