#!/usr/bin/env bash
# Runs the program `dwell` on journals of the classroom table, each case in a folder of its own, and compares what it prints, to the byte.
# The last line is 'N passed, M failed'; the exit status is 0 if none failed.
set -euo pipefail

root=$(cd "$(dirname "${BASH_SOURCE[0]}")/.." && pwd)
room=$(mktemp -d)
trap 'rm -rf "$room"' EXIT
passed=0
failed=0

# ---- One case

fresh() { # starts a case: a folder with the classroom table, its journal, and the one with a changed verdict
    rm -rf "$room/files"
    mkdir "$room/files"
    cp "$root/examples/classroom/table.bin" "$root/examples/classroom/journal.bin" "$room/files"
    cp "$root/examples/changed-verdict/journal.bin" "$room/files/changed.bin"
    cd "$room/files"
    : >"$room/expected"
    : >"$room/notices"
}

line() { # LINE...: expected on standard output
    printf '%s\n' "$@" >>"$room/expected"
}

notice() { # LINE...: expected on standard error
    printf '%s\n' "$@" >>"$room/notices"
}

# The classroom journal stays in state 0 for the slots 0, 1, 2 and 11, with input 1 in slots 1 and 2, and in state 1 for the slots 3 to 10,
# all with input 0. State 0 is entered at 0 and at 11, state 1 at 3.
sheet() { # N: expects the sheet of so many classroom journals
    line "journals,$1" "pair,0,0,$((2 * $1))" "pair,0,1,$((2 * $1))" "pair,1,0,$((8 * $1))" 'pair,1,1,0'
    line "state,0,$((4 * $1)),$((2 * $1))" "state,1,$((8 * $1)),$1"
}

result() { # NAME RIGHT(true or false) WHAT
    if [ "$2" = true ]; then
        passed=$((passed + 1))
        echo "ok      $1: $3"
    else
        failed=$((failed + 1))
        echo "FAILED  $1: $3"
    fi
}

case_of() { # NAME ARGUMENT...: ends a case
    local name=$1
    shift
    if ! "$root/host/run-program" dwell "$@" >"$room/printed" 2>"$room/said"; then
        result "$name" false 'it did not end well'
    elif ! cmp -s "$room/printed" "$room/expected"; then
        result "$name" false "expected '$(head -c 300 "$room/expected")', got '$(head -c 300 "$room/printed")'"
    elif ! cmp -s "$room/said" "$room/notices"; then
        result "$name" false "expected on standard error '$(head -c 300 "$room/notices")', got '$(head -c 300 "$room/said")'"
    else
        result "$name" true "$(wc -l <"$room/printed") lines"
    fi
}

if ! "$root/host/build-program" dwell >"$room/built" 2>&1; then
    cat "$room/built"
    exit 1
fi

# ---- Journals that are taken

fresh
sheet 1
case_of 'the classroom run' journal.bin

fresh
sheet 2
case_of 'the classroom run, twice' journal.bin journal.bin

# ---- Journals that are refused: a line each, and on with the next

fresh
line 'refused,"changed.bin",28,76'
sheet 1
case_of 'a changed verdict, and the classroom run' changed.bin journal.bin

fresh
mv changed.bin 'a "b", c'
line 'refused,"a ""b"", c",28,76'
sheet 1
case_of 'a name with quotes and a comma' journal.bin 'a "b", c'

fresh
mv changed.bin $'a\nb\tc\x7f'
line 'refused,"a?b?c?",28,76'
sheet 0
case_of 'a name with bytes that are no signs' $'a\nb\tc\x7f'

fresh
mv changed.bin 'ä'
line 'refused,"ä",28,76'
sheet 0
case_of 'a name with letters of another alphabet' 'ä'

fresh
line 'refused,"missing.bin",20,0'
sheet 1
notice 'missing.bin: No such file or directory'
case_of 'a missing file' missing.bin journal.bin

fresh
mkdir folder
line 'refused,"folder",20,0'
sheet 1
notice 'folder: Is a directory'
case_of 'a directory' folder journal.bin

fresh
: >empty.bin
line 'refused,"empty.bin",20,0'
sheet 1
case_of 'an empty file' empty.bin journal.bin

fresh
head -c 65537 /dev/zero >long.bin
line 'refused,"long.bin",19,0'
sheet 1
case_of 'a file of 65,537 bytes' long.bin journal.bin

fresh
name=$(printf 'x%.0s' {1..5000})
line "refused,\"${name:0:4096}\",20,0"
sheet 1
notice "${name:0:4096}: File name too long"
case_of 'a name that is longer than any path' "$name" journal.bin

# ---- The table

fresh
rm table.bin
line 'refused,"table.bin",1,0'
notice 'table.bin: No such file or directory'
case_of 'no table' journal.bin

fresh
printf '\0' >>table.bin
line 'refused,"table.bin",8,48'
case_of 'a byte after the table' journal.bin

fresh
notice 'usage: dwell JOURNAL...'
case_of 'no arguments'

# ---- Many files

many=()
for ((i = 0; i < 1001; i++)); do
    many+=(journal.bin)
done

fresh
sheet 100
case_of '100 journals, without a word on how far it is' "${many[@]:0:100}"

fresh
sheet 101
notice '100 of 101 journals' '101 of 101 journals'
case_of '101 journals' "${many[@]:0:101}"

fresh
line 'refused,"journal.bin",35,0'
sheet 1000
for ((i = 100; i <= 1000; i += 100)); do
    notice "$i of 1001 journals"
done
notice '1001 of 1001 journals'
case_of '1,001 journals, of which the last is refused' "${many[@]}"

echo "$passed passed, $failed failed"
[ "$failed" -eq 0 ]
