#!/usr/bin/env bash
# Runs the program `checkjournal` on files of every kind that docs/RULES.md tells apart, each in a folder of its own, and compares the
# line that it prints, to the byte. The last line is 'N passed, M failed'; the exit status is 0 if none failed.
set -euo pipefail

root=$(cd "$(dirname "${BASH_SOURCE[0]}")/.." && pwd)
room=$(mktemp -d)
trap 'rm -rf "$room"' EXIT
passed=0
failed=0

# ---- What the cases are made of

put() { # HEX: writes these bytes
    local i
    for ((i = 0; i < ${#1}; i += 2)); do
        printf '%b' "\\x${1:i:2}"
    done
}

record() { # TAG TIME VALUE: writes a record of a journal
    put "$(printf '%s0005%08x%02x' "$@")"
}

end() { # TIME: writes the end field of a journal
    put "$(printf '1f0004%08x' "$1")"
}

zeros() { # COUNT: writes so many zero bytes
    head -c "$1" /dev/zero
}

repeats() { # COUNT: writes the opening field and so many changes to input 0 at time 0
    put 10000100
    # shellcheck disable=SC2046
    printf '\x11\x00\x05\x00\x00\x00\x00\x00%.0s' $(seq "$1")
}

# ---- One case

fresh() { # starts a case: a folder with the classroom files
    rm -rf "$room/files"
    mkdir "$room/files"
    cp "$root/examples/classroom/table.bin" "$root/examples/classroom/journal.bin" "$room/files"
    cd "$room/files"
}

result() { # NAME RIGHT(true or false) WHAT
    if [ "$2" = true ]; then
        passed=$((passed + 1))
        echo "ok      $1: $3"
    else
        failed=$((failed + 1))
        echo "FAILED  $1: $3"
    fi
}

prints() { # NAME LINE: ends a case
    printf '%s\n' "$2" >"$room/expected"
    if "$root/host/run-program" checkjournal >"$room/printed" 2>"$room/said" && cmp -s "$room/printed" "$room/expected" && [ ! -s "$room/said" ]; then
        result "$1" true "$2"
    else
        result "$1" false "expected '$2', got '$(head -c 200 "$room/printed")' $(head -c 200 "$room/said")"
    fi
}

same() { # NAME FILE FILE: both have the same bytes
    if cmp -s "$root/$2" "$root/$3"; then
        result "$1" true "$2 is $3"
    else
        result "$1" false "$2 is not $3"
    fi
}

spelled() { # NAME DEFINITION FILE: the file has the bytes that this definition of crates/demands/specs/Tight.antt spells
    local bytes
    bytes=$(sed -n "/^$2 =\$/,/\[\]\$/p" "$root/crates/demands/specs/Tight.antt" | grep -o '0x[0-9A-F][0-9A-F]' | cut -c 3- | tr -d '\n')
    if [ -n "$bytes" ] && [ "$bytes" = "$(od -A n -v -t x1 "$root/$3" | tr -d ' \n' | tr a-f A-F)" ]; then
        result "$1" true "$3 is $2"
    else
        result "$1" false "$3 is not $2"
    fi
}

if ! "$root/host/build-program" checkjournal >"$room/built" 2>&1; then
    cat "$room/built"
    exit 1
fi

# ---- The stored files

same 'the built-in run has the classroom table' crates/checkjournal/data/table.bin examples/classroom/table.bin
same 'the built-in run has the classroom journal' crates/checkjournal/data/journal.bin examples/classroom/journal.bin
same 'the changed verdict has the classroom table' examples/changed-verdict/table.bin examples/classroom/table.bin
same 'the old table was converted to the classroom table' examples/idle-sets/table.bin examples/classroom/table.bin
same 'the short journal has the classroom table' examples/short-journal/table.bin examples/classroom/table.bin
same 'the short journal was made of the classroom journal' examples/short-journal/journal.bin examples/classroom/journal.bin
same 'the torn journal has the classroom table' examples/torn-journal/table.bin examples/classroom/table.bin
same 'the season has the classroom table' examples/season/table.bin examples/classroom/table.bin
same 'the early shift is the classroom run' examples/season/early.bin examples/classroom/journal.bin
same 'the torn journal of the season is the torn journal' examples/season/torn.bin examples/torn-journal/torn.bin
same 'the journal for 12 has the classroom table' examples/tight-times/twelve/table.bin examples/classroom/table.bin
same 'the journal for 5 has the classroom table' examples/tight-times/five/table.bin examples/classroom/table.bin
spelled 'the journal for 12 is that of the theorem' journal_of_twelve examples/tight-times/twelve/journal.bin
spelled 'the journal for 5 is that of the theorem' journal_of_five examples/tight-times/five/journal.bin

# ---- The runs of the classroom table

fresh
prints 'the classroom run' 'accepted end=12 cycles=4 moves=2 state=0 output=0 left=4 longest=3'

fresh
cp "$root/examples/changed-verdict/journal.bin" .
prints 'the test at 8 with verdict 1' 'refused 28 at 76'

fresh
{ put 10000100; end 0; } >journal.bin
prints 'opening field and end at 0' 'accepted end=0 cycles=0 moves=0 state=0 output=0 left=0 longest=0'

fresh
cp "$root/examples/idle-sets/old-table.bin" table.bin
prints 'an old table: state 0 has no hold and delays input 1' 'refused 11 at 40'

# ---- A stamped journal, and what is read from it

fresh
cp "$root/examples/short-clock/table.bin" "$root/examples/short-clock/journal.bin" .
prints 'the short clock' 'accepted end=180000 cycles=4 moves=2 state=0 output=0 left=64464 longest=50000'

fresh
cp "$root/examples/short-clock/table.bin" .
cp "$root/examples/short-clock/stamped.bin" journal.bin
prints 'the short clock with its stamps: a change has four bytes of time' 'refused 21 at 4'

# ---- A short journal

fresh
cp "$root/examples/short-journal/table.bin" .
cp "$root/examples/short-journal/short.bin" journal.bin
prints 'a short journal in the place of the journal' 'refused 21 at 0'

# ---- A torn journal, and what is salvaged from it

fresh
cp "$root/examples/torn-journal/table.bin" .
cp "$root/examples/torn-journal/torn.bin" journal.bin
prints 'a torn journal' 'refused 20 at 108'

fresh
cp "$root/examples/torn-journal/table.bin" .
cp "$root/examples/torn-journal/salvaged.bin" journal.bin
prints 'what is salvaged from it' 'accepted end=9 cycles=3 moves=1 state=1 output=1 left=4 longest=3'

# ---- The other shift of the season

fresh
cp "$root/examples/season/late.bin" journal.bin
prints 'the late shift, with a tick at its end' 'accepted end=10 cycles=5 moves=3 state=1 output=1 left=2 longest=3'

# ---- The journals that show tight times to be least

fresh
cp "$root/examples/tight-times/twelve/journal.bin" .
prints 'state 1 is left at 13, with input 0 present from 1 on' 'accepted end=13 cycles=5 moves=2 state=0 output=0 left=5 longest=3'

fresh
cp "$root/examples/tight-times/five/journal.bin" .
prints 'state 0 is left at 6, with input 1 present from 1 on' 'accepted end=6 cycles=2 moves=1 state=1 output=1 left=0 longest=3'

fresh
cp "$root"/examples/back-to-idle/{table,journal}.bin .
prints 'the mixer is idle at 59, with stop present from 2 on' 'accepted end=59 cycles=31 moves=5 state=0 output=0 left=30 longest=2'

# ---- Tables with timers

fresh
cp "$root/examples/classroom-timers/table.bin" .
prints 'the classroom run, with a timer in place of the hold' 'accepted end=12 cycles=4 moves=2 state=0 output=0 left=4 longest=3'

fresh
cp "$root/examples/classroom-timers/table.bin" "$root/examples/changed-verdict/journal.bin" .
prints 'the test at 8 with verdict 1, with a timer' 'refused 28 at 76'

fresh
cp "$root/examples/gas-burner/table.bin" "$root/examples/gas-burner/journal.bin" .
prints 'the gas burner' 'accepted end=33 cycles=10 moves=5 state=1 output=0 left=8 longest=4'

fresh
head -c 89 "$root/examples/gas-burner/table.bin" >table.bin
prints 'the gas burner without its last byte' 'refused 1 at 55'

fresh
{ cat "$root/examples/gas-burner/table.bin"; zeros 1; } >table.bin
prints 'a byte after the gas burner' 'refused 8 at 90'

# ---- Files that are missing, empty or no files

fresh
rm table.bin journal.bin
prints 'no files at all' 'refused 1 at 0'

fresh
rm table.bin
prints 'no table' 'refused 1 at 0'

fresh
rm journal.bin
prints 'no journal' 'refused 20 at 0'

fresh
: >table.bin
prints 'an empty table' 'refused 1 at 0'

fresh
: >journal.bin
prints 'an empty journal' 'refused 20 at 0'

fresh
ln -sf nowhere table.bin
prints 'a table that cannot be opened' 'refused 1 at 0'

fresh
ln -sf nowhere journal.bin
prints 'a journal that cannot be opened' 'refused 20 at 0'

fresh
rm table.bin
mkdir table.bin
prints 'a directory in place of the table' 'refused 1 at 0'

fresh
rm journal.bin
mkdir journal.bin
prints 'a directory in place of the journal' 'refused 20 at 0'

# ---- Torn files, and bytes after the last field

fresh
head -c 47 "$root/examples/classroom/table.bin" >table.bin
prints 'a table without its last byte' 'refused 1 at 37'

fresh
head -c 104 "$root/examples/classroom/journal.bin" >journal.bin
prints 'a journal torn within a record' 'refused 20 at 100'

fresh
head -c 116 "$root/examples/classroom/journal.bin" >journal.bin
prints 'a journal without its end field' 'refused 20 at 116'

fresh
zeros 1 >>table.bin
prints 'a byte after the table' 'refused 8 at 48'

fresh
zeros 1 >>journal.bin
prints 'a byte after the journal' 'refused 22 at 123'

# ---- Journals of about 65,536 bytes

fresh
{ repeats 8190; end 0; } >journal.bin
prints 'the longest journal that can be accepted, 65,531 bytes' 'accepted end=0 cycles=0 moves=0 state=0 output=0 left=0 longest=0'

fresh
{ repeats 8190; end 0; zeros 5; } >journal.bin
prints 'a journal of 65,536 bytes' 'refused 22 at 65531'

fresh
{ repeats 8191; put 1f000400; } >journal.bin
prints 'a torn journal of 65,536 bytes' 'refused 20 at 65532'

fresh
{ repeats 8190; end 0; zeros 6; } >journal.bin
prints 'a journal of 65,537 bytes' 'refused 19 at 0'

fresh
zeros 200000 >>journal.bin
prints 'a journal of 200,123 bytes' 'refused 19 at 0'

fresh
zeros 65537 >journal.bin
rm table.bin
prints 'a journal of 65,537 bytes and no table' 'refused 1 at 0'

# ---- Tables of about 65,536 bytes: no more of them count

fresh
{ put 01fffd; zeros 65533; } >table.bin
prints 'a field that fills a table of 65,536 bytes' 'refused 2 at 0'

fresh
{ put 01fffe; zeros 65534; } >table.bin
prints 'a field that fills a table of 65,537 bytes' 'refused 1 at 0'

fresh
{ put 01ffff; zeros 65535; } >table.bin
prints 'a field that fills a table of 65,538 bytes' 'refused 1 at 0'

fresh
zeros 200000 >>table.bin
prints 'a table of 200,048 bytes' 'refused 8 at 48'

# ---- Numbers of several digits

fresh
{
    put 10000100
    for t in {1..120}; do
        record 12 "$t" 0
        record 13 "$t" 1
        record 14 "$t" 0
    done
    end 120
} >journal.bin
prints 'a tick at each instant' 'accepted end=120 cycles=120 moves=0 state=0 output=0 left=0 longest=1'

# 32 states, inputs and outputs; E is 60,000; state q has output q; input i leads to state i; no holds.
each=$(printf '%02x' {0..31})
{
    put 01000420202000
    put 0200040000ea60
    put "030020$each"
    put 040400
    for _ in {0..31}; do
        put "$each"
    done
    put 050080
    zeros 128
    put 060080
    zeros 128
} >"$room/largest.bin"

fresh
cp "$room/largest.bin" table.bin
{
    put 10000100
    record 11 59998 31
    record 12 59999 31
    record 13 59999 1
    record 14 60000 31
    end 120000
} >journal.bin
prints 'the largest table' 'accepted end=120000 cycles=1 moves=1 state=31 output=31 left=0 longest=60000'

echo "$passed passed, $failed failed"
[ "$failed" -eq 0 ]
