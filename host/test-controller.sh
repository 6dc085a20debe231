#!/usr/bin/env bash
# Builds the controller (examples/controller, docs/CONTROLLER.md) and runs it on an emulated board. Its journals must be, byte for byte, those
# of the library for x86-64: left alone, reset from outside at random moments, and with a supply that fails from one instruction to the next.
# Faults that are put into the controller must be noticed, and its instructions must be as the page says. What is missing is installed.
# The last line is `N passed, M failed`.
set -u
CDPATH='' cd -- "$(dirname -- "${BASH_SOURCE[0]}")/.." || exit 1

out=target/host/controller
table=examples/classroom/table.bin
every_2='{ 2, 2, 2 }'
passed=0
failed=0

result() { # STATUS WHAT
    if [ "$1" -eq 0 ]; then
        passed=$((passed + 1))
        echo "ok      $2"
    else
        failed=$((failed + 1))
        echo "FAILED  $2"
    fi
}

finish() {
    printf '%s passed, %s failed\n' "$passed" "$failed"
    [ "$failed" -eq 0 ]
    exit
}

stop() { # MESSAGE: nothing more can be tried
    result 1 "$1"
    finish
}

# shellcheck source=host/x86-64.sh
. host/x86-64.sh
install_missing || stop 'what is missing could not be installed'
command -v qemu-system-arm >/dev/null || install_packages qemu-system-arm || stop 'qemu-system-arm could not be installed'
rm -rf "$out"
mkdir -p "$out" || stop "could not make $out"
kit/native/build x86-64 cortex-m3 || stop 'the library was not built'

for program in examples/live.c examples/watch.c host/run-stimulus.c; do
    "$compiler" -std=c11 -O2 -Wall -Wextra -Werror -Iinclude "$program" target/staticlib/libkrossvil.a "${link[@]}" \
        -o "$out/$(basename "$program" .c)" || stop "$program did not build"
done
"$own" -std=c11 -O2 -Wall -Wextra -Werror host/sensor.c -o "$out/sensor" || stop 'sensor did not build'

# An instruction takes 1,024 ns here, and a unit of the controller 10 ms. The emulator's clock counts instructions, so that it makes no
# difference how busy this machine is.
board=(qemu-system-arm -M mps2-an385 -nodefaults -display none -icount "shift=10,sleep=off" -serial stdio
    -chardev "socket,id=monitor,fd=10" -mon chardev=monitor)

build() { # NAME SOURCES PACE [WORD...]: the firmware of this name; words are for the link
    SOURCES=$2 LINK=${*:4} examples/controller/build "$table" "$3" "$out/$1" >"$out/$1.built" 2>&1 ||
        { cat "$out/$1.built"; stop "$1 did not build"; }
}

with() { # NAME FILE...: a copy of the sources with these added
    mkdir -p "$out/$1.sources"
    cp examples/controller/* "${@:2}" "$out/$1.sources"
}

board_runs() { # NAME SCRIPT EVERY [WORD...]: what was seen is left in NAME.seen, the journal in NAME.journal
    timeout 300 "$out/sensor" "$out/$2.script" "$out/$1.journal" "$3" "${board[@]}" -kernel "$out/$1/controller.elf" "${@:4}" \
        >"$out/$1.seen" 2>"$out/$1.said"
}

same_as() { # NAME JOURNAL WHAT [no-leds]: the run came to its end, wrote this journal, and the LEDs show its last output
    local status=$? line
    line=$("${run[@]}" "$out/watch" "$table" <"$out/$1.journal")
    echo "        $(cat "$out/$1.seen"); $line"
    [ "$status" -eq 0 ] && cmp "$out/$1.journal" "$2" && [[ $line =~ ^accepted.*\ output=([0-9]+)\  ]] &&
        { [[ $(cat "$out/$1.seen") == *", LEDs ${BASH_REMATCH[1]}" ]] || [ "${4-}" = no-leds ]; }
    result $? "$3"
}

# ---- Scripts, and what the library for x86-64 makes of them

as_script() { # the last line of examples/live's sensor lines ends the run
    sed '$!s/^/input /; $s/\(.*\) .*/end \1/'
}

sensor_lines() { # UNITS SEED: changes at random moments; the last one is to 1, so that the LEDs have something to show
    awk -v units="$1" -v seed="$2" 'BEGIN {
        for (srand(seed); time < units - 10; time += 1 + int(24 * rand())) print time + 0, int(2 * rand())
        print units - 1, 1
        print units, 1
    }'
}

by_live() { # NAME: its lines are the sensor's; the journal is that of krossvil_live, by examples/live.c
    as_script <"$out/$1.lines" >"$out/$1.script"
    "${run[@]}" "$out/live" "$table" "$out/$1.expected" "$out/$1.memory" <"$out/$1.lines" >"$out/$1.printed" || stop "live on $1"
}

# ---- Left alone

sensor_lines 20000 1 >"$out/long.lines" # 10,000 cycles
sensor_lines 1200 2 >"$out/short.lines"
by_live long
by_live short
printf 'input 0 0\ninput 1 1\ninput 3 0\nend 12\n' >"$out/classroom.script"
"${run[@]}" "$out/run-stimulus" "$table" examples/classroom/stimulus.bin "$out/classroom.expected" || stop 'run-stimulus'

# The classroom's controller is slow: it polls, tests and ticks at these times after the start of each of its four cycles.
build classroom examples/controller '{ 2, 2, 3 }, { 2, 2, 3 }, { 1, 2, 3 }, { 1, 1, 2 }'
build controller examples/controller "$every_2"
cat "$out/controller.built"
board_runs classroom classroom 0
same_as classroom "$out/classroom.expected" "the classroom's script: the journal of krossvil_run"
cmp "$out/classroom.journal" examples/classroom/journal.bin
result $? 'which is examples/classroom/journal.bin'
board_runs controller long 0
same_as controller "$out/long.expected" '10,000 cycles: the journal of krossvil_live'
build late examples/controller '{ 2, 2, 4 }'
board_runs late short 0
[[ $(cat "$out/late.seen") == 'refused 25 at 0: '*', LEDs 128' ]]
result $? 'a tick later than E allows: the board says refused 25 and shows it'

# ---- Reset at random moments

board_runs classroom classroom 100
same_as classroom "$out/classroom.expected" "the classroom's script, reset from outside"
board_runs controller long 5000
same_as controller "$out/long.expected" '10,000 cycles, reset from outside'
[[ $(cat "$out/controller.seen") =~ ,\ ([0-9]+)\ sent\ again,\ ([0-9]+)\ lines\ torn,.*\ ([0-9]+)\ resets ]] &&
    [ "${BASH_REMATCH[1]}" -gt 10 ] && [ "${BASH_REMATCH[2]}" -gt 10 ] && [ "${BASH_REMATCH[3]}" -gt 100 ]
result $? 'it was reset more than 100 times, in records and between them'
unsteady=(--wrap=main --wrap=lines_next)
with unsteady host/unsteady.c
build unsteady "$out/unsteady.sources" "$every_2" "${unsteady[@]}"
board_runs unsteady short -1
same_as unsteady "$out/short.expected" '600 cycles, reset from one instruction to the next' no-leds

# After power-on the RAM has any bytes. The emulator puts them back at each reset, so that the last one, after the end, begins anew.
any=(-device "loader,file=target/staticlib/libkrossvil.a,addr=0x20000000,force-raw=on")
board_runs controller short 0 "${any[@]}"
[[ $(cat "$out/controller.seen") == 'a record is not in its place: '* ]] && cmp "$out/controller.journal" "$out/short.expected"
result $? 'any bytes in RAM are no run; and a run that is lost with the RAM is missed'

# ---- Faults that must be noticed

seed() { # NAME FILE EDIT [MORE SOURCES]: the firmware with the edit made in this file of its sources
    with "$1" "${@:4}"
    sed -i "$3" "$out/$1.sources/$2"
    cmp -s "$out/$1.sources/$2" "examples/controller/$2" && stop "$1: the edit has changed nothing"
    build "$1" "$out/$1.sources" "$every_2" ${4+"${unsteady[@]}"}
}

noticed() { # NAME JOURNAL: the run did not come to a good end, or wrote another journal
    local status=$?
    echo "        $(cat "$out/$1.seen")"
    [ "$status" -eq 1 ] || { [ "$status" -eq 0 ] && ! cmp "$out/$1.journal" "$2"; }
    result $? "noticed: $1"
}

seed cleared-memory controller.ld '/\.kept (NOLOAD)/d; s/\*(\.bss /*(.kept .bss /'
board_runs cleared-memory long 1000
noticed cleared-memory "$out/long.expected"
seed record-lost controller.c 's/^ *send_last_record(); .*/;/'
board_runs record-lost long 1000
noticed record-lost "$out/long.expected"
seed record-doubled controller.c 's/^ *send_last_record(); .*/lines_send_record(kept_now()->at + 8, kept_now()->record, 8);/'
board_runs record-doubled long 1000
noticed record-doubled "$out/long.expected"
seed one-memory kept.c 's/1 - current/current/' host/unsteady.c
board_runs one-memory long -1
noticed one-memory "$out/long.expected"
seed old-line lines.c 's/line.time >= from/line.time + 1 > 0/'
board_runs old-line long 1000
noticed old-line "$out/long.expected"
seed output-forgotten controller.c '/LEDS = kept_now()->output;/d'
board_runs output-forgotten short 0
noticed output-forgotten "$out/short.expected"
seed output-not-shown controller.c '/LEDS = next->output;/d'
board_runs output-not-shown short 0
noticed output-not-shown "$out/short.expected"
seed no-mark kept.c 's/marked == mark/mark != 0/'
board_runs no-mark short 0 "${any[@]}"
noticed no-mark /dev/null

# ---- What a step takes: as docs/CONTROLLER.md says, within a twentieth

with count host/count-steps.c
rm "$out/count.sources/controller.c"
build count "$out/count.sources" "$every_2"
timeout 60 qemu-system-arm -M mps2-an385 -nodefaults -display none -icount shift=6 -semihosting -serial stdio -kernel "$out/count/controller.elf" \
    </dev/null >"$out/counted" 2>"$out/count.said"
result $? 'the instructions are counted'
sed -n 's/^ *FLASH: *\([0-9]*\) B.*/flash: \1/p; s/^ *RAM: *\([0-9]*\) B.*/RAM: \1/p' "$out/controller.built" >>"$out/counted"
for what in 'one thousand' 2x2 8x8 32x32 '32x32, 4 timers' 'memory and line' stack flash RAM; do
    counted=$(sed -n "s/^$what: //p" "$out/counted" | sort -n | tail -n 1)
    page=$(sed -n "s/^| $what | \([0-9,]*\) |.*/\1/p" docs/CONTROLLER.md | tr -d ,)
    [ -n "$counted" ] && [ -n "$page" ] && [ $((20 * counted)) -le $((21 * page)) ] && [ $((20 * page)) -le $((21 * counted)) ]
    result $? "$what: $counted, the page says $page"
done
finish
