# Rows of tests/apps/flash: a station with several boards. It has read station.sh.
# shellcheck shell=sh disable=SC2034,SC2154
# shellcheck source=tests/lib/usb/all_boards.sh
. "$top/tests/lib/usb/all_boards.sh"
no_boards
for port in 1 2 3 4 5 6 7 8; do
    board "1-$port" "USB_SERIAL=F$port"
done
board 1-9 USB_DENIED=3
board 1-10 'USB_FATE=kill 6' USB_SERIAL=F10
printf '1-3 = bay 3\n' > ports
all --json --ports ports --report all.csv new.dfu
expect "the highest status: $code" test "$code" -eq 14
expect 'a line for each, one for all, and the header' test "$(wc -l < all.csv)" -eq 12
expect 'each line is whole' test "$(grep -c "^\"$time\",[0-9]*,\"[a-z-]*\",\".*,[0-9.]*,1*\$" all.csv)" -eq 11
expect 'one that was killed has its identifiers and serial number, and no release' \
    grep -q ',14,"broken",.*,"1209","0001",,"F10","1-10",,' all.csv
expect 'so has one without access' grep -q ',5,"no-access",.*,"1209","0001","0100",,"1-9",,' all.csv
expect 'the name of its port' grep -q ',"F3","1-3","bay 3",' all.csv
expect 'a summary' grep -q ',14,"summary","8 flashed, 2 not","new.dfu",' all.csv
expect 'a record of all' grep -q '^{"status":14,"report":"summary","words":"8 flashed, 2 not","flashed":8,"failed":2,"unconfirmed":0,' out
expect 'broken has its device, and no release' grep -q '^{"status":14,"report":"broken",.*"vendor":"1209","product":"0001","path":' out
if command -v python3 > /dev/null; then
    expect 'records' python3 -c 'import json
r = [json.loads(line) for line in open("out")]
assert len(r) == 11 and all(x["time"] and x["crc32"] and x["image"] == "new.dfu" for x in r), r'
fi
all --ports ports new.dfu
expect 'a line has the name' grep -q '^1-3 bay 3 serial F3 [0-9.]* s verified: ' out
expect 'no summary that nobody asked for' test "$(grep -c summary out)" -eq 0
no_boards
for port in 1 2 3 4 5; do
    board "1-$port" "USB_SERIAL=F$port"
done
# those that are there: no more than that, and a batch that ends short has a status of its own
all --count 3 --json new.dfu
expect "three of five: $code" test "$code-$(grep -c '"report":"verified"' out)" = 0-3
expect 'none is missing' grep -q '"report":"summary","words":"3 flashed, 0 not","flashed":3,"failed":0,"unconfirmed":0,"short":0,' out
all --count 7 --json --report short.csv new.dfu
expect "five of seven: $code" test "$code-$(grep -c '"report":"verified"' out)" = 17-5
expect 'two are missing' grep -q '^{"status":17,"report":"summary",.*"short":2,"next":"plug in others, .* --count 2; ' out
says 'dfu-flash: 2 fewer than --count asks for'
expect 'so the report says' grep -q ',17,"summary","5 flashed, 0 not",' short.csv
all --count 7 new.dfu
expect "as text: $code" test "$code" -eq 17
says 'next: plug in others, and run it again with --count 2; with --wait those that come are flashed too'
all --count 6 --wait=1 --quiet new.dfu
expect "with --wait: $code, $(cat err)" test "$code-$(wc -c < err)" = 17-0
# a board that failed gives its place to another one that was there, and its status stays
no_boards
board 1-1 USB_CAPACITY=13
for port in 2 3 4 5; do
    board "1-$port" "USB_SERIAL=F$port"
done
all --count 4 --json new.dfu
expect "a place is given away: $code" test "$code-$(grep -c '"report":"verified"' out)" = 6-4
all --count 5 new.dfu
expect "the status of the failure: $code" test "$code" -eq 6
says 'dfu-flash: 1 fewer than --count asks for'
# what is unconfirmed counts, and 17 is not hidden behind 8
no_boards
for port in 1 2 3; do
    board "1-$port" USB_ATTRIBUTES=01
done
all --count 2 new.dfu
expect "unconfirmed: $code" test "$code-$(grep -c unconfirmed out)" = 8-2
says 'dfu-flash: 0 flashed, 2 not: 2 unconfirmed, 0 failed'
board 1-4 USB_SERIAL=F4
board 1-5 USB_CAPACITY=13
all --json --count 5 new.dfu
expect "three numbers: $code" test "$code" -eq 6
expect 'in a record' grep -q ',"words":"1 flashed, 4 not: 3 unconfirmed, 1 failed","flashed":1,"failed":4,"unconfirmed":3,"short":1,' out
sed -i '/PATH=1-[45]/d' boards
all --count 4 new.dfu
expect "unconfirmed, and one is missing: $code" test "$code-$(grep -c unconfirmed out)" = 17-3
row 2 - '' '' --count 2 new.dfu
says 'next: run: dfu-flash --all --count 2 new.dfu'
no_boards
for port in 1 2 3 4 5; do
    board "1-$port" "USB_SERIAL=F$port"
done
all --count 3 --json --wait new.dfu
expect "an end after so many: $code" test "$code-$(grep -c '"report":"verified"' out)" = 0-3
expect 'a record of all' grep -q '"report":"summary","words":"3 flashed, 0 not","flashed":3,"failed":0,' out
no_boards
board 1-1 'USB_FATE=leave 5' USB_AWAY=220
all --retry 1 new.dfu
expect "one of several is tried again: $(cat out err)" test "$code" -eq 0
expect 'it says so' grep -q '^1-1: dfu-flash: gone: .*; it is tried again, 1 of 1$' err
# A board whose line in the report can't be written has the image all the same, so none is flashed in its place.
for port in 1 2 3 4; do
    printf 'USB_PATH=1-%s\tUSB_SERIAL=F%s\tUSB_SAVE=%s/saved-1-%s\n' "$port" "$port" "$work" "$port"
done > boards
rm -f saved-*
cp report.csv full.csv
{
    (
        trap '' XFSZ
        ulimit -f 1
        code=0
        env LD_LIBRARY_PATH="$work" USB_IMAGE="$work/old" USB_BOARDS="$work/boards" ./dfu-flash --all --count 2 --json --report full.csv \
            new.dfu 2>&1 || code=$?
        echo "$code" >&3
    ) | cat > out
} 3> status
expect "no room for the report: $(cat status out)" test "$(cat status)-$(grep -c '"report":"verified"' out)" = 3-2
expect 'no board is missing' grep -q '"report":"summary",.*"short":0,' out
expect 'they are flashed' grep -q '"2 flashed, 2 of them without their line in the log or the report, 0 not","flashed":2,"failed":0,' out
expect 'two boards alone' test "$(find . -name 'saved-1-*' | wc -l)" -eq 2
expect 'it is said of each' test "$(grep -c "^1-[0-9]: dfu-flash: full.csv can't be written: " out)" -eq 2
# A session that ends before a board is begun took no time.
no_boards
board 1-1
# early WORDS..: the record of an end before any board.
early() {
    rm -f early.csv
    all --report early.csv --json "$@"
    expect "$*: $(cat early.csv)" test "$(tail -n +2 early.csv | cut -d '"' -f 2- | sed 's/,[0-9]*$//; s/.*,//' | tr '\n' ' ')" = '0.000 '
}
early damaged.dfu
early nowhere.dfu
early any.dfu
early other.dfu

# The front of a line may be seen before its rest. None takes that for a line that was broken off, so that no empty line comes.
# shellcheck disable=SC2086
gcc -O1 -Wall -Wextra -Werror ${USB_HEADERS-$(pkg-config --cflags libusb-1.0 2> /dev/null || echo -I/usr/include/libusb-1.0)} -o appended \
    "$top/tests/lib/usb/lines/appended.c" "$top/apps/flash/posix/append.c"
expect 'sixteen processes add lines at once' ./appended lines
expect "each line is whole, and none is empty" test "$(sort -u lines | wc -l)-$(wc -l < lines)" = 1-6400
