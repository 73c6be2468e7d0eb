# Rows of tests/apps/flash: no entry of --stamp goes to two boards, whatever fails. It has read stamp.sh.
# shellcheck shell=sh disable=SC2034,SC2154,SC2086

# If a board is tried again, it keeps its entry only if it has a serial number, because nothing else says that it is the same board.
# Without one each try takes the next entry, and the one before stays used. Each try ends with 10, because the board goes deaf (fate).
seq 200 230 > serials
rm -f serials.used
fate='deaf 20'
row 10 - '{"status":10,"report":"silent",' '' --json --retry 2 $at 16:8 room.dfu
expect 'the same entry' test "$(used)" = '200 1-1 begun,200 1-1 silent,'
expect 'the record has the tries' grep -q '"stamp":"200","tries":3,' out
row 10 - 'silent: ' USB_SERIAL= --retry 2 --report again.csv $at 16:8 room.dfu
expect 'another entry each' test "$(used | tr , '\n' | tail -n 6 | tr '\n' ,)" = \
    '201 1-1 begun,201 1-1 silent,202 1-1 begun,202 1-1 silent,203 1-1 begun,203 1-1 silent,'
expect 'a line for each' test "$(tail -n +2 again.csv | sed 's/.*",,[0-9.]*,//' | tr '\n' ' ')" = '1,"201" 2,"202" 3,"203" '
says 'dfu-flash: what came may be another board, so it gets the next entry'
says 'dfu-flash: 201 is used: this board may have it, and no other gets it'
printf '1\n2\n' > serials
rm -f serials.used
fate='swap 5'
row 0 - 'installed: ' USB_AWAY=220 --no-verify --retry 1 $at 16:8 room.dfu
fate=
expect "another board has another entry: $(used)" test "$(used)" = '1 1-1 begun,1 1-1 gone,2 1-1 begun,2 1-1 installed,'
stamped 2
printf '1\n' > serials
rm -f serials.used
fate='deaf 20'
row 1 - 'NoEntry: ' USB_SERIAL= --retry 1 $at 16:8 room.dfu
fate=

# A board without a serial number that leaves by itself in the middle is gone: what comes may be another one, and is sent nothing.
printf '1\n2\n3\n' > serials
rm -f serials.used
for fate in 'swap 20' 'leave 20'; do
    row 10 - 'gone: ' 'USB_SERIAL= USB_AWAY=60' $at 16:8 room.dfu
    says 'next: a board came that may be another one, as it has no serial number, and was sent nothing: '
    expect "$fate: no block" test "$(sed "1,/ ${fate%% *} /d" log | grep -c DNLOAD)" -eq 0
done
fate='leave 20'
row 0 - 'verified: ' 'USB_AWAY=60' $at 16:8 room.dfu
fate=
expect "an entry each: $(used)" test "$(used)" = '1 1-1 begun,1 1-1 gone,2 1-1 begun,2 1-1 gone,3 1-1 begun,3 1-1 verified,'

# An entry in another form is the same entry, and a named one is known by its name.
printf 'AB\nC\nkey\t0x01\n' > serials
rm -f serials.used
row 0 - 'verified: ' '' $at 16:8 room.dfu
printf '0x4142\n0X43000000\nkey\t0x02\nD\n' > serials
row 0 - 'verified: ' '' $at 16:8 room.dfu
expect "the next one: $(used)" test "$(used | cut -d , -f 3)" = '0x43000000 1-1 begun'
printf 'C\nkey\t0x03\nE\n' > serials
row 0 - 'verified: ' '' $at 16:8 room.dfu
expect "the one after it: $(used)" test "$(used | cut -d , -f 5)" = 'key 1-1 begun'

if [ -z "${NO_ALL-}" ]; then
    # A full disk: nothing is sent, the entry is free, and what stays of a line is in no other line.
    seq 300 330 > serials
    rm -f serials.used
    row 0 - 'verified: ' '' $at 16:8 room.dfu
    size=$(wc -c < serials.used)
    {
        head -c $((480 - size)) /dev/zero | tr '\0' '#'
        echo
    } >> serials.used
    cp serials.used before.used
    code=0
    (
        trap '' XFSZ
        ulimit -f 1
        exec env LD_LIBRARY_PATH="$work" USB_IMAGE="$work/old" ./dfu-flash --quiet $at 16:8 room.dfu
    ) > out 2> err || code=$?
    expect "a full disk: $code" test "$code" -eq 3
    says "serials.used: it can't be written, so nothing is sent"
    expect 'a part of the line is there' test "$(wc -c < serials.used)" -gt "$(wc -c < before.used)"
    row 0 - 'verified: ' '' $at 16:8 room.dfu
    stamped 301
    expect 'the part is gone' test "$(grep -c -v '^#\|	begun$\|	verified$' serials.used)" -eq 0
    # Killed between the line and the first transfer: the entry is nobody's.
    fate='kill 0'
    flash '' $at 16:8 room.dfu
    fate=
    expect "killed: $code" test "$code" -eq 137
    expect 'the entry is begun' grep -q '	302	1-1	begun$' serials.used
    row 0 - 'verified: ' '' $at 16:8 room.dfu
    stamped 303
    # Twelve at once: one has the list at a time, each other is refused, and no entry goes twice.
    rm -f serials.used many-*
    for number in 1 2 3 4 5 6 7 8 9 10 11 12; do
        (
            code=0
            env LD_LIBRARY_PATH="$work" USB_BUSY=3 USB_IMAGE="$work/old" \
                ./dfu-flash --quiet $at 16:8 room.dfu > "many-$number" 2>&1 || code=$?
            echo "$code" >> "many-$number"
        ) &
    done
    wait
    done_all=$(cat many-* | grep -c '^verified: ')
    expect "each is flashed or refused: $(cat many-*)" test "$(cat many-* | grep -c '^0$\|^3$')" -eq 12
    expect 'one at least is flashed' test "$done_all" -ge 1
    expect 'an entry each' test "$(grep -c begun serials.used)" -eq "$done_all"
    expect 'each another' test "$(grep begun serials.used | cut -f 2 | sort | uniq -d | wc -l)" -eq 0
    # A record that is replaced meanwhile, as by an editor, and a list with two names.
    env LD_LIBRARY_PATH="$work" USB_BUSY=100 USB_ABSENT=40 USB_IMAGE="$work/old" ./dfu-flash --wait $at 16:8 room.dfu > other 2>&1 &
    soon grep -q 'waiting for the device' other
    cp serials.used other.used
    mv other.used serials.used
    code=0
    wait "$!" || code=$?
    expect "a record that was replaced: $code, $(cat other)" test "$code" -eq 3
    expect 'it says so' grep -q "serials.used: it was removed or replaced while the program ran, so nothing is sent" other
    expect 'the step' grep -q '^next: bring that same file back, since it says which entries are used' other
    ln serials hard-link
    row 3 - '' '' $at 16:8 room.dfu
    says 'dfu-flash: serials.used: its list has another name by a hard link'
    expect 'nothing is sent' is_silent
    rm -f hard-link
fi
printf 'A\nB\n' > serials
rm -f serials.used
