# Rows of tests/apps/flash: --stamp, a serial number or a key for each board.
# shellcheck shell=sh disable=SC2034,SC2154,SC2086

# An image of 64 bytes with room for 8 from byte 16 on, and one without.
letters='abcdefghijklmnop'
with_room() {
    printf '%s' "$letters"
    printf '\377\377\377\377\377\377\377\377'
    printf '%s%s' "$letters" 'qrstuvwxyz.-_ABCDEFGHIJ.'
}
with_room > room
"$dfu" add room room.dfu --vid 1209 --pid 0001 > /dev/null
cp room.dfu room.copy
# stamped TEXT: the image on the board has this in its room, with 00 behind it, and else what the file has.
stamped() {
    printf '%s' "$letters" > wanted
    printf '%s\0\0\0\0\0\0\0\0' "$1" | head -c 8 >> wanted
    tail -c 40 room >> wanted
    expect "$1 is in the image" cmp wanted saved
}
used_is_free() {
    flock -n serials.used true
}
used() {
    cut -f 2- serials.used | tr '\t\n' ' ,'
}
at='--stamp serials --stamp-at'
printf '\357\273\277SN-1\n\n# the second shift\n  SN-2 \r\n0X414243\nkey 1\t0x0102030405060708\n\303\244\n' > serials

# Each run takes the next entry, and the record of it has the check sum of the image with it.
row 0 - 'verified: ' '' $at 0x10:8 room.dfu
stamped SN-1
says 'dfu-flash: the board gets SN-1 at 0x10'
expect 'a record' test "$(used)" = 'SN-1 1-1 begun,SN-1 1-1 verified,'
row 0 - '{"status":0,"report":"verified",' '' --json $at 16:0x8 room.dfu
stamped SN-2
expect 'which entry' grep -q '"stamp":"SN-2","tries":1,"image":"room.dfu","crc32":' out
expect 'the check sum of what was sent' grep -q "\"crc32\":\"$(gzip -c wanted | tail -c 8 | od -An -tx4 -N4 | tr -d ' ')\"" out
row 0 - '{"status":0,"report":"dry-run",' '' --json --dry-run $at 16:8 room.dfu
expect 'a dry run names the next one' grep -q '"stamp":"0x414243"' out
row 0 - 'verified: ' '' $at 16:8 --device 1209:0001 room
stamped ABC
row 0 - 'verified: ' '' --report stamps.csv $at 16:8 room.dfu
printf '%s\1\2\3\4\5\6\7\10' "$letters" > wanted
tail -c 40 room >> wanted
expect 'a key' cmp wanted saved
expect 'a record has its name alone' test "$(grep -c '0102' serials.used stamps.csv out err | cut -d : -f 2 | tr -d '\n')" = 0000
expect 'the report has a column more' grep -q ',seconds,tries,stamp$' stamps.csv
expect 'the report has its name' grep -q ',"key 1"$' stamps.csv
row 0 - 'verified: ' '' --quiet $at 16:8 room.dfu
expect 'quiet' test ! -s err
expect 'the file stays as it is' cmp room.dfu room.copy
row 1 old 'NoEntry: ' '' $at 16:8 room.dfu
expect 'no entry: nothing is sent' is_silent
says 'next: add entries to the list, and run it again'
printf 'SN-6\n' >> serials
row 1 old 'NoRoom: ' '' $at 15:8 room.dfu
says 'next: the image has 70 at 0xf and ff at 0x10: '
row 1 old 'NoRoom: ' '' $at 0:8 room.dfu
for place in 57:8 64:8 0xffffffff:256 63:8; do
    row 1 old 'OutsideTheImage: ' '' $at $place room.dfu
    says 'the image is 0x0 to 0x3f: correct --stamp-at'
    expect "$place: nothing is sent" is_silent
done
row 1 old '{"status":1,"report":"OutsideTheImage",' '' --json $at 64:8 room.dfu
sed 's/abc/abd/' room.dfu > room-damaged.dfu
row 1 old 'BadCrc: ' '' $at 16:8 room-damaged.dfu
row 1 old 'NoSignature: ' '' $at 16:8 room
"$dfu" add room room-other.dfu --vid 1209 --pid 0002 > /dev/null
row 1 old 'WrongTarget: ' '' $at 16:8 --device 1209:0001 room-other.dfu
expect 'what is refused takes no entry' test "$(grep -c SN-6 serials.used)" -eq 0
row 5 old '' USB_DENIED=3 $at 16:8 room.dfu
row 4 - '' USB_DEVICES=0 $at 16:8 room.dfu
expect 'nor does a board that is not opened' test "$(grep -c SN-6 serials.used)" -eq 0

# A board that failed keeps its entry, which is named.
fate='deaf 20'
row 10 - '{"status":10,"report":"silent",' '' --json $at 16:8 room.dfu
says 'dfu-flash: SN-6 is used: this board may have it, and no other gets it'
expect 'the record has it' grep -q '"stamp":"SN-6"' out
fate=
expect 'so has that of the list' test "$(used | tr ',' '\n' | tail -n 2 | tr '\n' ,)" = 'SN-6 1-1 begun,SN-6 1-1 silent,'
row 1 old 'NoEntry: ' '' $at 16:8 room.dfu
# Killed at each transfer from the first on: the next run takes another entry, and says where the last one is.
seq 100 139 > serials
rm -f serials.used
for number in 0 1 2 9 14 20 27 33 40 5; do
    fate="kill $number"
    flash '' $at 16:8 room.dfu
    fate=
    case $code in 137 | 0) right ;; *) wrong "kill $number: $code" ;; esac
done
row 0 - 'verified: ' '' --report killed.csv $at 16:8 room.dfu
says 'dfu-flash: the program was killed when the board at 1-1 had its entry'
expect 'no entry went twice' test "$(grep -c begun serials.used)-$(grep begun serials.used | cut -f 2 | sort -u | wc -l)" = 11-11
expect 'the report has the one that was killed' grep -q ',14,"broken","the program was killed; .*,"109"$' killed.csv
row 0 - 'verified: ' '' $at 16:8 room.dfu
expect 'it is said once' test "$(grep -c 'was killed' err)" -eq 0
# What a loss of power has broken off was before anything was sent; a line in between that isn't understood is a person's.
printf '2026-11-30T09:15:00Z\t11' >> serials.used
row 0 - 'verified: ' '' $at 16:8 room.dfu
stamped 112
expect 'the line is gone' test "$(grep -c '11$' serials.used)" -eq 0
# One that lacks only its end may be a board's: it counts as used.
printf '2026-11-30T09:15:00Z\t113\t1-1\tbegun' >> serials.used
row 0 - 'verified: ' '' $at 16:8 room.dfu
stamped 114
expect 'the line is there, with its end' grep -q '	113	1-1	begun$' serials.used
printf '113 by hand\n' >> serials.used
row 3 - '' '' $at 16:8 room.dfu
says 'dfu-flash: serials.used, line '
says ': it is no time, entry, path and report, with a tab between each'
sed -i '$d' serials.used
printf '\t115\t\t\n' >> serials.used
row 0 - 'verified: ' '' $at 16:8 room.dfu
stamped 116
# By a link it is the same list; and one that is in use is nobody else's.
if [ -z "${NO_ALL-}" ]; then
    ln -s serials serials-link
    row 0 - 'verified: ' '' --stamp serials-link --stamp-at 16:8 room.dfu
    stamped 117
    env LD_LIBRARY_PATH="$work" USB_BUSY=2500 USB_IMAGE="$work/old" ./dfu-flash $at 16:8 room.dfu > other 2>&1 &
    soon grep -q '	118	.*begun' serials.used
    row 3 - '' '' $at 16:8 room.dfu
    says 'dfu-flash: serials.used: another dfu-flash is at work with it'
    wait "$!" || wrong "the first of two: $(cat other)"
fi
# Lists and records that can't be used: nothing is sent.
# bad WORDS LINE..: these lines are refused with these words.
bad() {
    words=$1
    shift
    printf '%b\n' "$@" > serials
    rm -f serials.used
    row 3 - '' '' $at 16:8 room.dfu
    says "$words"
    expect "$*: nothing is sent" is_silent
    expect "$*: no record" test ! -e serials.used
}
bad 'dfu-flash: serials, line 2: it has 9 bytes, and its place 8' SN-1 123456789
bad 'line 1: it has 9 bytes, and its place 8' 0x010203040506070809
bad 'line 1: 0x is before bytes, of two hexadecimal digits each' 0x123
bad 'line 1: 0x is before bytes' 0x
bad 'line 3: 0x is before bytes' '#' '' 0xfg
bad 'line 3: it is the same as line 1' A B A
bad 'line 2: it is the same as line 1' A 0x41
bad 'line 2: it is the same as line 1' 'key\t0x01' 'key\t0x02'
bad 'line 2: it is the same as line 1' 'one\t0x01' 'two\t0x01'
bad 'line 1: it has a control character, or is no UTF-8' 'a\033b'
bad 'line 1: it has a control character, or is no UTF-8' '\377'
bad 'line 1: its name is too long' 'a\033\tb'
bad 'line 2: it has a tab with nothing before it, or behind it' A 'SN-2\t'
bad 'line 1: it has a tab with nothing before it, or behind it' ' \t0x01'
bad 'line 1: it begins with a quotation mark, which would be written too' '"SN-1"'
bad 'line 1: it begins with a quotation mark, which would be written too' 'key\t"a"'
bad 'serials: there is no entry in it' '# none' ''
printf 'a\0b\n' > serials
row 3 - '' '' $at 16:8 room.dfu
says 'serials: there is a NUL in it'
rm serials
row 3 - '' '' $at 16:8 room.dfu
says 'dfu-flash: serials can'
printf 'A\nB\n' > serials
for make in 'mkdir serials.used' 'ln -s nothing serials.used' 'mkfifo serials.used'; do
    [ -z "${NO_ALL-}" ] || [ "$make" = 'mkdir serials.used' ] || continue
    rm -rf serials.used
    $make
    row 3 - '' '' $at 16:8 room.dfu
    says 'dfu-flash: serials.used: '
    expect "$make: nothing is sent" is_silent
done
rm -rf serials.used
# A list that begins anew is named, and an entry that may be more than one column, also with --quiet.
printf 'A,B\nC;\nkey\td #e\nF  G\nH I\n' > serials
row 0 - 'verified: ' '' $at 16:8 room.dfu
says 'dfu-flash: serials.used is new, so the list begins with A,B'
says 'dfu-flash: serials, line 1 is taken as it stands: A,B; so are 3 more'
row 0 - 'verified: ' '' --quiet $at 16:8 room.dfu
expect "quiet: $(cat err)" test "$(cat err)" = 'dfu-flash: serials, line 2 is taken as it stands: C;; so are 2 more'
row 0 - 'dry-run: ' '' --dry-run $at 16:8 room.dfu
expect "no key: $(cat err)" grep -q 'line 3 is taken as it stands: key; so are 1 more$' err
expect 'it is new once' test "$(grep -c 'is new' err)" -eq 0
printf 'A\nB\n' > serials
rm -f serials.used
# The words.
for words in '--stamp serials room.dfu' '--stamp-at 16:8 room.dfu' '--stamp - --stamp-at 16:8 room.dfu' \
    '--stamp= --stamp-at 16:8 room.dfu' \
    "$at 16 room.dfu" "$at 16: room.dfu" "$at :8 room.dfu" "$at 16:0 room.dfu" "$at 16:257 room.dfu" "$at -1:8 room.dfu" \
    "$at 16:8x room.dfu" "$at 0x:8 room.dfu" "$at 4294967296:8 room.dfu" "$at 16:8 --upload never" \
    "$at 16:8 --detach" "$at 16:8 --list" "$at 16:8 --demo"; do
    row 2 - '' '' $words
done
row 2 - '' '' --serials serials room.dfu
says 'next: did you mean --stamp?'
expect 'no record of these' test ! -e serials.used
# DfuSe: the place is an address, of a raw image by --address or of an element of a file.
row 0 - 'verified: ' USB_DEVICE=dfuse --stamp serials --stamp-at 0x08000410:8 --address 0x08000400 --device 1209:0001 room
says 'dfu-flash: the board gets A at 0x8000410'
expect 'a record' grep -q '	A	1-1	verified$' serials.used
row 1 - 'OutsideTheImage: ' USB_DEVICE=dfuse --stamp serials --stamp-at 0x10:8 --address 0x08000400 --device 1209:0001 room
says 'the image is 0x8000400 to 0x800043f'
. "$top/tests/lib/usb/stamp_again.sh"
[ -n "${NO_ALL-}" ] || . "$top/tests/lib/usb/stamp_all.sh"
