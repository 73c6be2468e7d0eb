# Rows of tests/apps/flash: --all, over several boards on one bus (USB_BOARDS), each in a process of its own.

# shellcheck source=tests/lib/usb/all_boards.sh
. "$top/tests/lib/usb/all_boards.sh"

# Sixteen boards, with faults of their own, and one that the file is not for.
sixteen() {
    no_boards
    board 1-1 USB_SERIAL=F1
    board 1-2.1 USB_SERIAL=F2 USB_START=app USB_AWAY=4 USB_DFU_IDS=1209:00ff:0100
    board 1-2.2 'USB_FATE=lost-back 4'
    board 1-2.3 'USB_FATE=lost-out 3,leave 9' USB_AWAY=3
    board 1-2.4 USB_ATTRIBUTES=05
    board 1-3 USB_ATTRIBUTES=01
    board 1-4 USB_CAPACITY=13
    board 1-5 USB_LEAST=100
    board 1-6 'USB_FATE=deaf 4'
    board 1-7 'USB_FATE=leave 4' USB_AWAY=100000
    board 1-8 USB_DENIED=3
    board 1-9 USB_CLAIMED=6
    board 1-10 USB_ALTERNATES=3
    board 1-11 USB_DEVICE=uboot
    board 1-12 'USB_FATE=swap 4' USB_SERIAL=F12
    board 1-13 'USB_FATE=kill 6'
    board 1-14 USB_IDS=1209:0002:0100
}
sixteen
mkdir logs
all --log logs new.dfu
expect 'the highest status' test "$code" -eq 14
longest=$(sed -n 's/.* \([0-9]*\)\.[0-9] s .*/\1/p' out | sort -n | tail -n 1)
expect "as long as the longest, which is waited for: $took s of $longest" test "$took" -le $((longest + 5))
expect 'a line each' test "$(wc -l < out)" -eq 16
ended 1-1 verified new
ended 1-2.1 verified new
ended 1-2.2 verified new
ended 1-2.3 verified new
ended 1-2.4 installed new
ended 1-3 unconfirmed new
ended 1-4 'refused errADDRESS' old
ended 1-5 'refused errNOTDONE' old
ended 1-6 silent old
ended 1-7 gone old
ended 1-8 no-access -
ended 1-9 no-access old
ended 1-10 several -
ended 1-11 verified new
ended 1-12 other old
ended 1-13 broken old
expect '1-14: not meant' test ! -e saved-1-14
expect 'the one that left is the last' test "$(sed -n '$s/ .*//p' out)" = 1-7
says '1-4: dfu-flash: errADDRESS: '
says '1-8: SUBSYSTEM=="usb"'
says 'dfu-flash: 6 flashed, 10 not'
for path in 1-1 1-2.1 1-2.2 1-2.3 1-2.4 1-3 1-4 1-5 1-6 1-7 1-9 1-11 1-12 1-13; do
    echo "${path}_1.log"
done | LC_ALL=C sort > wanted
expect 'a log of each that was to be opened' test "$(LC_ALL=C ls logs)" = "$(cat wanted)"
expect 'a log' test "$("$dfu" judge logs/1-2.1_1.log | cut -d ' ' -f 1)" = kept
expect 'a log: its requests' test "$(grep -c '^[0-9a-f]\{16\} ' logs/1-2.1_1.log)" -eq "$(grep -c '^[0-9]' log-1-2.1)"

# A record each, as it ends, in JSON; and no log is written over.
no_boards
board 1-1 USB_SERIAL=F1
board 1-2 USB_SERIAL=F2 USB_CAPACITY=13
board 1-3 USB_SERIAL=F3 USB_DENIED=3
all --json --quiet --log logs new.dfu
expect 'the highest status' test "$code" -eq 6
expect 'quiet' test "$(grep -vc '^1-3: ' err)" -eq 0
expect 'a new log' test -s logs/1-1_2.log
if command -v python3 > /dev/null; then
    expect 'records' python3 -c 'import json
r = {x["path"]: x for x in map(json.loads, open("out"))}
assert len(r) == 3, r
assert r["1-1"]["report"] == "verified" and r["1-1"]["serial"] == "F1" and r["1-1"]["log"] == "logs/1-1_2.log", r
assert r["1-2"]["code"] == "errADDRESS" and r["1-2"]["status"] == 6, r
assert r["1-3"]["report"] == "no-access" and r["1-3"]["status"] == 5 and "serial" not in r["1-3"], r
assert all(0 <= x["seconds"] < 10 for x in r.values()), r'
fi

# A board that can't tell whether its image is in place (8) hides none that failed.
for failure in 6:USB_CAPACITY=13 5:USB_DENIED=3 8:USB_SERIAL=F2; do
    no_boards
    board 1-1 USB_ATTRIBUTES=01
    board 1-2 "${failure#*:}"
    all new.dfu
    expect "unconfirmed beside ${failure#*:}: $code" test "$code" -eq "${failure%%:*}"
    ended 1-1 unconfirmed new
done

# A raw image, and identifiers of both modes.
no_boards
board 1-1 USB_DFU_IDS=1209:00ff:0100
board 1-2 USB_DFU_IDS=1209:00ff:0100 USB_START=app
all --device 1209:0001,1209:00ff new
expect 'both modes' test "$code" -eq 0
ended 1-1 verified new
ended 1-2 verified new

# One that hangs holds up no other, and is killed 10 seconds after its time.
no_boards
board 1-1
board 1-2 'USB_FATE=stuck 6'
all --timeout 1 new.dfu
expect 'one hangs' test "$code" -eq 10
expect 'one hangs: the other one first' test "$(sed -n '1s/ .*//p' out)" = 1-1
ended 1-1 verified new
expect 'one hangs: its record' grep -q '^1-2 serial F1 .*silent: it did not end in time' out
# Those that are at work give up at a signal, one that hangs too.
# begin WORDS..: the same in the background; its number is in $first. reap: waits for it.
begin() {
    rm -f saved-* log-*
    env LD_LIBRARY_PATH="$work" USB_IMAGE="$work/old" USB_BOARDS="$work/boards" ./dfu-flash --all "$@" > out 2> err &
    first=$!
}
reap() {
    code=0
    wait "$first" || code=$?
}
last_of() {
    grep '^[0-9]' "log-$1" | tail -n 1 | cut -d ' ' -f 2
}
# sent COUNT PATH..: so many requests at least were sent to each of these.
sent() {
    least=$1
    shift
    for path in "$@"; do
        test -e "log-$path" && test "$(grep -c '^[0-9]' "log-$path")" -ge "$least" || return
    done
}
board 1-3 USB_BUSY=60000
begin new.dfu
soon grep -q '^1-1 ' out
soon sent 2 1-3
soon sent 6 1-2
kill -INT "$first"
reap
expect 'a signal' test "$code" -eq 11
ended 1-3 aborted old
expect 'a signal: ABORT' test "$(last_of 1-3)" = ABORT
ended 1-1 verified new
expect 'a signal: one that hangs' grep -q '^1-2 .*silent: ' out
# Where the first process is ended at once, by a second signal or by force, those that are at work give up by themselves.
for signals in 'INT INT' KILL; do
    no_boards
    board 1-1 USB_BUSY=60000
    board 1-2 USB_SLOW=1500
    begin new.dfu
    soon sent 1 1-1 1-2
    for signal in $signals; do
        kill "-$signal" "$first"
        soon is_taken "$first"
        sleep 0.3
    done
    reap
    expect "$signals: at once" test "$code" -gt 128
    for path in 1-1 1-2; do
        soon test -s "saved-$path"
        expect "$signals, $path: ABORT" test "$(last_of $path)" = ABORT
        expect "$signals, $path: the old image" cmp "saved-$path" old
    done
done

# With --wait: those that come, also in the place of one that was pulled out; a board that was flashed is not flashed again.
no_boards
board 1-1 USB_SERIAL=F1 USB_PULLED=800
board 1-1 USB_SERIAL=F2 USB_PLUGGED=1 USB_PAUSE=3000 USB_PULLED=800 "USB_SAVE=$work/saved-second"
board 1-1 USB_SERIAL=F3 USB_PLUGGED=2 USB_PAUSE=300 "USB_SAVE=$work/saved-third"
board 1-2 USB_SERIAL=F4 USB_ABSENT=5 USB_START=app
board 1-3 USB_SERIAL= USB_PULLED=800
board 1-3 USB_SERIAL= USB_PLUGGED=5 USB_PAUSE=3000 "USB_SAVE=$work/saved-other"
board 1-4 USB_SERIAL= USB_PULLED=800
board 1-4 USB_SERIAL= USB_PLUGGED=7 USB_PAUSE=300 "USB_SAVE=$work/saved-too-soon"
all --wait=8 new.dfu
expect 'those that come' test "$code" -eq 0
expect 'in one place one after the other' test "$(sed -n 's/^1-1 serial \([^ ]*\) .*/\1/p' out | tr '\n' ' ')" = 'F1 F2 F3 '
expect 'each once' test "$(wc -l < out)" -eq 7
for image in saved-1-1 saved-second saved-third saved-1-2 saved-1-3 saved-other saved-1-4; do
    expect "$image" cmp "$image" new
done
expect 'one that comes within two seconds, with no serial number, counts as the one of before' test ! -e saved-too-soon
# A board without a serial number in the place of one that was pulled before it was there again is not flashed, which is said, until it was
# unplugged for three seconds. Nothing is said of one that starts its image.
for pause in 2500 4000; do
    no_boards
    board 1-1 USB_SERIAL= USB_PULLED=200
    board 1-1 USB_SERIAL= USB_PLUGGED=1 "USB_PAUSE=$pause" "USB_SAVE=$work/saved-early"
    board 1-2 USB_SERIAL=
    board 1-3 USB_SERIAL=F3 USB_PULLED=200
    board 1-3 USB_SERIAL=F4 USB_PLUGGED=4 "USB_PAUSE=$pause" "USB_SAVE=$work/saved-other"
    all --wait=6 new.dfu
    expect "$pause ms: those that were flashed: $code" test "$code-$(wc -l < out)" = 0-4
    expect "$pause ms: it counts as the one of before" test ! -e saved-early
    says '1-1: a device without a serial number came soon after, and counts as the one that was flashed here; if it is another one, unplug it'
    expect "$pause ms: said once, of that one" test "$(grep -c 'without a serial number' err)" -eq 1
    expect "$pause ms: another serial number" cmp saved-other new
done
# Another board that comes at once into the place of one that was flashed, and fails, says why and what to do.
no_boards
board 1-1 USB_SERIAL=F1 USB_PULLED=200
board 1-1 USB_SERIAL=F2 USB_PLUGGED=1 USB_PAUSE=500 USB_CAPACITY=13 "USB_SAVE=$work/saved-second"
all --wait=4 new.dfu
expect "a changed board fails: $code" test "$code-$(wc -l < out)" = 6-2
says '1-1: dfu-flash: errADDRESS: '
says '1-1: next: make the image smaller'

# Where a board isn't seen again, and one comes after more than ten seconds: with the same serial number it is the same one. A signal is
# the end of a production line, and no failure.
no_boards
board 1-1 USB_SERIAL=F1 USB_PULLED=1
board 1-1 USB_SERIAL=F1 USB_PLUGGED=1 USB_PAUSE=11000 "USB_SAVE=$work/saved-late"
board 1-2 USB_SERIAL= USB_PULLED=1
board 1-2 USB_SERIAL= USB_PLUGGED=3 USB_PAUSE=11000 "USB_SAVE=$work/saved-late-other"
board 1-3 USB_DEVICE=uboot
begin --wait new.dfu
is_late() {
    test "$(wc -l < out)" -ge 4 && grep -q 'is back; another one' err
}
soon is_late || :
sleep 1
kill -INT "$first"
reap
expect 'the end of a line is no failure' test "$code" -eq 0
expect 'each once' test "$(wc -l < out)" -eq 4
expect 'the same serial number: the same board' test ! -e saved-late
says '1-1: the device that was flashed here is back; another one with its serial number has to be plugged in again'
expect 'no serial number: another board' cmp saved-late-other new

# shellcheck source=tests/lib/usb/all_again.sh
. "$top/tests/lib/usb/all_again.sh"

# What is refused before anything is sent.
all any.dfu
expect 'a file for any device' test "$code-$(cut -d : -f 1 out)" = 1-ForAny
expect 'a file for any device: nothing is sent' test ! -e log-1-1 -o "$(wc -l < log-1-1)" -gt 0
all nowhere.dfu
expect 'no file' test "$code" -eq 3
all --log nowhere new.dfu
expect 'no folder' test "$code" -eq 3
all other.dfu
expect 'no device' test "$code" -eq 4
says 'the file is for vendor 1209, product 0002'
all --wait=1 other.dfu
says 'dfu-flash: no device that is there now is the one that is asked for: the file is for vendor 1209, product 0002'
for words in '--path 1-1 new.dfu' '--serial F1 new.dfu' '--dry-run new.dfu' '--verbose new.dfu' '--verbose=x new.dfu' '--list' \
    '--upload never' '--detach' ''; do
    # shellcheck disable=SC2086
    all $words
    expect "--all $words" test "$code" -eq 2
done
row 2 - '' '' --log logs new.dfu
no_boards
board 1-1
for words in new.dfu '--json new.dfu'; do
    code=0
    # shellcheck disable=SC2086
    env LD_LIBRARY_PATH="$work" USB_IMAGE="$work/old" USB_BOARDS="$work/boards" ./dfu-flash --all $words > /dev/full 2> err || code=$?
    expect 'standard output is full' test "$code" -eq 3
    expect 'standard output is full: it is flashed' cmp saved-1-1 new
    expect 'standard output is full: its report' grep -q '^1-1 serial F1 .* verified: \|^{"status":0,"report":"verified",.*"path":"1-1"' err
done
code=0
env LD_LIBRARY_PATH="$work" USB_IMAGE="$work/old" USB_BOARDS="$work/boards" ./dfu-flash --all new.dfu <&- >&- 2> err || code=$?
expect 'standard output is closed' test "$code" -eq 3

# Rows on a terminal, one for each board, that are drawn over one another; none is wider than it.
if command -v script > /dev/null; then
    no_boards
    board 1-1 USB_SERIAL=F1 USB_SLOW=3
    board 1-2 USB_SERIAL=F2 USB_SLOW=4
    env LD_LIBRARY_PATH="$work" USB_IMAGE="$work/old" USB_BOARDS="$work/boards" TERM=xterm \
        script -qec 'stty cols 60 rows 24; ./dfu-flash --all --device 1209:0001 long.dfu' terminal > /dev/null 2>&1 < /dev/null || :
    tr -d '\r' < terminal | sed 's/\x1b\[[0-9]*[A-Z]//g' > rows
    expect 'rows' grep -q '^1-1  *downloading \[=*  *\]  *[0-9]*% [0-9]* of 800 bytes' rows
    expect 'rows' grep -q '^1-2  *comparing  *\[=*  *\]  *[0-9]*% ' rows
    expect 'none is wider' test "$(grep -c '^1-[12]  .\{56\}' rows)" -eq 0
    expect 'then a line each' test "$(grep -c '^1-[12] serial F[12] .* s verified: ' rows)" -eq 2
fi
