#!/usr/bin/env bash
# Runs the example of a controller's loop (examples/live.c), kills it at random moments and starts it again with the files that it kept: the
# journal must be the one of a run that was left alone. Runs the example of a live check (examples/watch.c) on journals of every kind beside
# the example of a check, and on one that is longer than any that a check takes. The last line is `N passed, M failed`.
#
#   host/test-live.sh [--self] [KILLS]
#
# --self: the reference in C stands in for the library, which is then not needed.
set -u
CDPATH='' cd -- "$(dirname -- "${BASH_SOURCE[0]}")/.." || exit 1

self=no
if [ "${1-}" = --self ]; then
    self=yes
    shift
fi
kills=${1-100}
library=target/staticlib/libkrossvil.a
out=target/host/live
passed=0
failed=0

result() { # STATUS WHAT
    if [ "$1" -eq 0 ]; then
        passed=$((passed + 1))
        echo "ok      $2"
    else
        failed=$((failed + 1))
        echo "FAILED  $2"
    fi
}

finish() {
    printf '%s passed, %s failed\n' "$passed" "$failed"
    [ "$failed" -eq 0 ]
    exit
}

stop() { # MESSAGE: nothing more can be tried
    result 1 "$1"
    finish
}

# shellcheck source=host/x86-64.sh
. host/x86-64.sh
install_missing || stop 'what is missing could not be installed'
rm -rf "$out"
mkdir -p "$out" || stop "could not make $out"

called=("$library")
if [ "$self" = yes ]; then
    called=(host/reference.c)
    for entry in check_journal check_short live watch; do
        called+=("-Dkrossvil_$entry=reference_$entry")
    done
else
    kit/native/build x86-64 || stop 'the library was not built'
fi
for example in live watch check; do
    "$compiler" -std=c11 -O2 -Wall -Wextra -Werror -Ihost -Iinclude "examples/$example.c" "${called[@]}" "${link[@]}" -o "$out/$example" ||
        stop "$example did not build"
done
"$own" -std=c11 -O2 -Wall -Wextra -Werror host/killed-after.c -o "$out/killed-after" || stop 'killed-after did not build'
table=examples/classroom/table.bin

# ---- The run of examples/live

live() { # NAME: with the files of this name
    "${run[@]}" "$out/live" "$table" "$out/$1.journal" "$out/$1.memory"
}

live told <examples/live/sensor.txt >"$out/printed"
result $? 'the example runs to the end of its lines'
diff examples/live/printed.txt "$out/printed"
result $? 'it prints examples/live/printed.txt'
cmp "$out/told.journal" examples/live/journal.bin
result $? 'it writes examples/live/journal.bin'
live told <examples/live/sensor.txt >"$out/printed"
[ $? -eq 0 ] && [ ! -s "$out/printed" ] && cmp -s "$out/told.journal" examples/live/journal.bin
result $? 'started again after its end it does nothing'
[ "$(live wide <<<'0 256')" = 'refused 23 at 0' ] && [ ! -s "$out/wide.journal" ]
result $? 'an input that the table has not got is refused, and nothing is written'
[ "$("${run[@]}" "$out/live" examples/idle-sets/old-table.bin "$out/old.journal" "$out/old.memory" <<<'0 0')" = 'refused 11 at 40' ]
result $? 'a table that does not pass is refused'

says() { # LINE WORDS: with these words it says the line on the error stream, prints nothing and ends with 2
    local line=$1 printed
    shift
    printed=$("${run[@]}" "$out/live" "$@" 2>"$out/said")
    [ $? -eq 2 ] && [ -z "$printed" ] && [ "$(cat "$out/said")" = "$line" ]
    result $? "$line"
}
cp examples/classroom/journal.bin "$out/other.journal"
says "$out/other.journal and $out/other.memory do not go together" "$table" "$out/other.journal" "$out/other.memory" \
    <examples/live/sensor.txt
cmp "$out/other.journal" examples/classroom/journal.bin
result $? 'a journal with no memory is left as it is'
head -c 3 "$out/told.journal" >"$out/torn.journal"
says "$out/torn.journal and $out/told.memory do not go together" "$table" "$out/torn.journal" "$out/told.memory" <examples/live/sensor.txt
says "$out/none cannot be opened" "$out/none" "$out/none.journal" "$out/none.memory" <examples/live/sensor.txt
says 'a line is not TIME INPUT' "$table" "$out/line.journal" "$out/line.memory" <<<'x'

# ---- Killed and started again

# So many lines, each some time after the one before: a run of some thousand records.
awk 'BEGIN { srand(1); for (k = 0; k < 700; k++) { print time + 0, int(2 * rand()); time += 1 + int(12 * rand()) } }' >"$out/lines"
live alone <"$out/lines" >/dev/null
result $? "left alone, a run of $(stat -c %s "$out/alone.journal") bytes"

same_as_alone() { # the run that was killed has come to its end
    cmp "$out/killed.journal" "$out/alone.journal" && cmp "$out/killed.memory" "$out/alone.memory"
}

known() { # how much of the journal the memory knows: its last number, in the processor's own byte order
    if [ -e "$out/killed.memory" ]; then
        od -A n -t u4 -j 68 "$out/killed.memory" | tr -d ' '
    else
        echo 0
    fi
}

killed=0
between=0 # so often the journal had a record that the memory did not know
ends=0
wrong=0
RANDOM=1
by_timer=$((128 + $(kill -l PROF)))
words=("${run[@]}" "$out/live" "$table" "$out/killed.journal" "$out/killed.memory")
[ "$native" = yes ] || words[0]=$(command -v "$emulator")
while [ "$killed" -lt "$kills" ] && [ "$wrong" -eq 0 ]; do
    "$out/killed-after" $((1 + RANDOM)) "${words[@]}" <"$out/lines" >/dev/null
    status=$?
    if [ "$status" -eq "$by_timer" ]; then
        killed=$((killed + 1))
        [ "$(stat -c %s "$out/killed.journal" 2>/dev/null || echo 0)" = "$(known)" ] || between=$((between + 1))
    elif [ "$status" -eq 0 ] && same_as_alone; then
        ends=$((ends + 1))
        rm "$out"/killed.*
    else
        wrong=1
    fi
done 2>/dev/null
result "$wrong" "killed $killed times, $between of them between the journal and the memory; $ends times it came to its end meanwhile"
[ "$between" -gt 0 ]
result $? 'it was killed between the two'
live killed <"$out/lines" >/dev/null && same_as_alone
result $? 'then left alone, it writes the journal and keeps the memory of a run that never was killed'

# ---- The live check

watches() { # TABLE JOURNAL: it prints the same as the check of the whole, and ends with the same status
    local whole status
    whole=$("${run[@]}" "$out/check" "$1" "$2")
    status=$?
    [ "$("${run[@]}" "$out/watch" "$1" <"$2"; echo "$?")" = "$whole"$'\n'"$status" ]
    result $? "$2 under $1: $whole"
}
watches "$table" examples/live/journal.bin
watches "$table" "$out/killed.journal"
if [ "$self" = no ]; then
    mkdir "$out/files"
    cp "$table" "$out/files/table.bin"
    cp "$out/killed.journal" "$out/files/journal.bin"
    host/build-program checkjournal || stop 'checkjournal was not built'
    [ "$(cd "$out/files" && ../../../../host/run-program checkjournal)" = "$("${run[@]}" "$out/watch" "$table" <"$out/killed.journal")" ]
    result $? 'it prints the line that checkjournal prints'
fi
for folder in classroom changed-verdict classroom-timers gas-burner short-clock torn-journal season; do
    for journal in examples/"$folder"/{journal,torn,salvaged,early,late}.bin; do
        [ ! -e "$journal" ] || watches "examples/$folder/table.bin" "$journal"
    done
done
journal=examples/classroom/journal.bin
wrong=0
for size in $(seq 0 123); do
    head -c "$size" "$journal" >"$out/cut.bin"
    [ "$("${run[@]}" "$out/watch" "$table" <"$out/cut.bin")" = "$("${run[@]}" "$out/check" "$table" "$out/cut.bin")" ] || wrong=$((wrong + 1))
done
result "$wrong" 'cut anywhere, the live check prints what the check does'
{ cat "$journal"; printf '\000'; } >"$out/followed.bin"
watches "$table" "$out/followed.bin"
watches examples/idle-sets/old-table.bin "$journal"

# More than the longest journal: some ten thousand cycles.
printf '0 0\n1 1\n20000 1\n' | live long >/dev/null
[ "$("${run[@]}" "$out/watch" "$table" <"$out/long.journal")" = 'accepted end=20000 cycles=10000 moves=1 state=1 output=1 left=0 longest=2' ]
result $? "a journal of $(stat -c %s "$out/long.journal") bytes"
[ "$("${run[@]}" "$out/check" "$table" "$out/long.journal")" = 'refused 19 at 0' ]
result $? 'which is too long for the check of the whole'
{ head -c 200004 "$out/long.journal"; printf '\021\000\000'; } >"$out/broken.bin"
[ "$("${run[@]}" "$out/watch" "$table" <"$out/broken.bin")" = 'refused 21 at 200004' ]
result $? 'and of which a record is broken far behind'
finish
