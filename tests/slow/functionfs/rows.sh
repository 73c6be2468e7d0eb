# What runs in the machine: dfu-flash, dfu-util and single transfers, over the kernel's USB and the real libusb, against dfu-gadget at the
# device controller of dummy_hcd. The medium is a disk of the machine.
# shellcheck shell=sh disable=SC2154
# shellcheck source=tests/slow/functionfs/common.sh
. ./common.sh
printf 'the old image' > old
printf 'a new image of 26 bytes ..' > new
# A byte stands in front that no prefix of dfu-prefix begins with: dfu-util's programs would take that for no part of the image.
{ printf D; head -c 50000 /dev/urandom; } > large
suffixed new large
cat > installed << 'END'
#!/bin/sh
dd if="$1" bs=1 skip="$2" count="$3" of=placed 2> /dev/null
END
chmod +x installed

# row STATUS IMAGE TEXT SETTINGS COMMAND..: the status, the image that stands then (old, new, large, or - for any), and how the
# last line begins.
row() {
    status=$1 image=$2 text=$3 settings=$4 code=0
    shift 4
    ./dfu-gadget format --force $medium --most 64K old
    start "$settings"
    begun=$(date +%s)
    "$@" > out 2> err || code=$?
    took=$(($(date +%s) - begun))
    stop
    found=$(tail -n 1 out)
    wrong=
    if [ "$code" -ne "$status" ]; then
        wrong=", status $code"
    elif [ "$image" != - ] && ! cmp -s saved "$image"; then
        wrong=', another image'
    elif [ "${found#"$text"}" = "$found" ] && [ -n "$text" ]; then
        wrong=', another line'
    elif [ "$ended" -ne 0 ]; then
        wrong=", dfu-gadget ended with $ended"
    fi
    if [ -z "$wrong" ]; then passed=$((passed + 1)); else failed=$((failed + 1)); fi
    echo "row ${wrong:+WRONG$wrong: }$settings: $* ($took s): ${found:-$(tail -n 1 err)}"
    if [ -n "$wrong" ]; then cat out err log | tail -n 60 | sed 's/^/    /'; fi
}
# asked ANSWER SETUP [BODY]: a transfer, and its answer.
asked() {
    answer=$1
    shift
    found=$(./transfer 1-1 "$@")
    if [ "$found" = "$answer" ]; then passed=$((passed + 1)); else
        failed=$((failed + 1))
        echo "row WRONG: $*: $found, not $answer"
        tail -n 5 log | sed 's/^/    /'
    fi
}

# Before it is set up, and after.
./dfu-gadget format $medium --most 64K old
expect 'a blank disk needs no --force' test $? -eq 0
./dfu-gadget run $medium --controller $udc --dry-run > out 2> err
expect 'a dry run without gadgets' test $? -eq 4
cat out
./set-up 0x1209 0x0001 0x0100 F1
expect 'set-up' test $? -eq 0
./dfu-gadget run $medium --controller $udc --dry-run > out 2> err
expect 'a dry run finds all' test $? -eq 0
cat out
su -s /bin/sh nobody -c "./dfu-gadget run $medium --controller $udc --dry-run" > out 2> err
expect 'a dry run of nobody' test $? -eq 4
cat out
./dfu-gadget format $medium --most 64K old 2> err
expect 'a medium is kept' test $? -eq 1

row 0 old '1209:0001 path 1-1 serial F1 interface 0 alt 0 ' --dfu-mode ./dfu-flash --list
cat out
row 0 new 'verified: ' --dfu-mode ./dfu-flash new.dfu
row 0 new 'Done!' --dfu-mode dfu-util -D new.dfu

# Single transfers: what is stalled and where the device stands then.
./dfu-gadget format --force $medium --most 64K old
start '--dfu-mode --transfer-size 64 --busy 20'
asked 000000000200 a103000000000600                  # GETSTATUS: OK, dfuIDLE
asked stall 2101000000004100 x65                     # DNLOAD of 65 bytes: stalled before its data stage
asked 0f0000000a00 a103000000000600                  # errSTALLEDPKT, dfuERROR
asked ok 2104000000000000                            # CLRSTATUS
asked stall 2101000000000000                         # DNLOAD of no bytes in dfuIDLE
asked ok 2104000000000000
asked ok 2101000000004000 x64                        # DNLOAD, block 0
asked 03 a105000000000100                            # GETSTATE: dfuDNLOAD-SYNC
asked 001400000400 a103000000000600                  # dfuDNBUSY, 20 ms
sleep 0.3
asked 000000000500 a103000000000600                  # dfuDNLOAD-IDLE
asked stall 2101020000004000 x64                     # a block out of turn: stalled before its data stage
asked 080000000a00 a103000000000600                  # errADDRESS
asked ok 2104000000000000
asked 'No such file or directory' 2101000001004000 x64    # to interface 1: the host's kernel sends it to none that isn't there
asked ok alt 0                                       # SET_INTERFACE is no reset
asked 02 a105000000000100
asked stall 21ff000000000000                         # a request that DFU has not
asked 0f0000000a00 a103000000000600
asked 'No such device' reset                         # the device leaves the bus in it, to come back as the application
is_there
asked 00 a105000000000100                            # the reset led to appIDLE
asked ok 2100e80300000000                            # DETACH, 1000 ms
asked 01 a105000000000100
sleep 2
asked 00 a105000000000100                            # the timer ran out
asked ok 2100e80300000000
asked 'No such device' reset
sleep 1
is_there
asked 02 a105000000000100
kill -STOP "$device"                                 # a daemon that is late: SET_INTERFACE is no reset,
asked ok alt 0
kill -CONT "$device"
asked 02 a105000000000100
kill -STOP "$device"                                 # nor are two of them, of which the first is dropped,
asked ok alt 0
asked ok alt 0
kill -CONT "$device"
asked 02 a105000000000100
kill -STOP "$device"                                 # and a reset is one
asked ok reset
kill -CONT "$device"
sleep 1
is_there
asked 00 a105000000000100
stop
expect 'single transfers' test "$ended" -eq 0
tail -n 12 log

# A board whose own gadget has a serial port, so that the interface of DFU is its third; and nobody runs dfu-gadget.
./set-up --remove
board=/sys/kernel/config/usb_gadget/board
mkdir $board
mkdir $board/strings/0x409 $board/configs/c.1 $board/functions/acm.usb0
echo 0x1209 > $board/idVendor
echo 0x0001 > $board/idProduct
echo 0x0100 > $board/bcdDevice
echo F1 > $board/strings/0x409/serialnumber
ln -s $board/functions/acm.usb0 $board/configs/c.1/
./set-up --application board --owner nobody 0x1209 0x0001 0x0100 F1
expect "set-up beside the board's own function" test $? -eq 0
mkdir own
chown nobody own
su -s /bin/sh nobody -c './dfu-gadget format own/medium --most 64K old'
expect 'nobody makes a medium' test $? -eq 0
su -s /bin/sh nobody -c "exec ./dfu-gadget run own/medium --controller $udc --application board --verbose" 2> log &
device=$!
is_there
./dfu-flash --list > out 2> err
cat out
expect 'the third interface' grep -q ' interface 2 alt 0 .*run-time mode' out
asked 00 a105000002000100
./dfu-flash new.dfu > out 2> err
expect 'nobody is flashed' test $? -eq 0
tail -n 1 out
kill "$device"
wait "$device"
expect 'nobody ends it' test $? -eq 0
./dfu-gadget image own/medium > saved
expect "nobody's medium" cmp saved new
./set-up --remove --application board
expect "the board's own function stays" test -d $board/functions/acm.usb0
expect 'ours is gone' test ! -e $board/functions/ffs.dfu-board
./set-up 0x1209 0x0001 0x0100 F1

# Modes, attributes, sizes; dfu-flash, and dfu-util by its statuses of docs/INTEROP.md.
row 0 new 'verified: ' --verbose ./dfu-flash new.dfu
row 0 large 'verified: ' --dfu-mode ./dfu-flash large.dfu
row 0 new 'installed: ' --dfu-mode ./dfu-flash --no-verify new.dfu
row 0 new 'installed: ' '--dfu-mode --attributes download,tolerant' ./dfu-flash new.dfu
row 0 new 'verified: ' '--dfu-mode --attributes download,upload' ./dfu-flash new.dfu
row 8 new 'unconfirmed: ' '--dfu-mode --attributes download' ./dfu-flash new.dfu
row 0 large 'verified: ' '--dfu-mode --transfer-size 1024 --busy 1' ./dfu-flash large.dfu
row 0 new 'verified: ' '--attributes download,upload,tolerant,detach' ./dfu-flash new.dfu
row 0 new 'verified: ' '--dfu-mode --busy 0 --manifest 0' ./dfu-flash new.dfu
row 0 old 'uploaded: ' --dfu-mode ./dfu-flash --upload up
expect 'an upload' cmp old up
row 0 large 'Done!' --dfu-mode dfu-util -D large.dfu
row 74 new '' '--dfu-mode --attributes download,upload' dfu-util -D new.dfu
row 0 new 'Done!' --verbose dfu-util -D new.dfu
row 0 new 'Done!' '--attributes download,upload,tolerant,detach' dfu-util -D new.dfu
row 0 old 'Received a total of 13 bytes' --dfu-mode dfu-util -U up-util
expect 'an upload by dfu-util' cmp old up-util
row 251 new '' --dfu-mode dfu-util -R -D new.dfu
row 0 new 'verified: ' '--dfu-mode --on-installed ./installed' ./dfu-flash new.dfu
sleep 1
expect 'the command got the image' cmp placed new

# The daemon is killed in the middle of a download: the old image or the new one, and it serves again.
names=
for turn in 1 2 3 4 5 6; do
    ./dfu-gadget format --force $medium --most 64K old
    start --dfu-mode
    ./dfu-flash large.dfu > out 2> err &
    flash=$!
    usleep $((turn * 250000))
    kill -9 "$device"
    wait "$device" 2> /dev/null
    ./dfu-gadget image $medium > saved
    name=torn
    cmp -s saved old && name=old
    cmp -s saved large && name=large
    names="$names $name"
    start --dfu-mode
    wait "$flash"
    names="$names($?)"
    stop
    cmp -s saved old || cmp -s saved large || names="$names-torn"
done
echo "row killed:$names"
case $names in *torn*) failed=$((failed + 1)) ;; *) passed=$((passed + 1)) ;; esac
./set-up --remove
expect 'set-up --remove' test ! -e /sys/kernel/config/usb_gadget/upgrade

# The device without hardware that the documents speak of, and what it prints.
DFU_GADGET=./dfu-gadget ./try old > tried 2>&1 &
tried=$!
is_there
./dfu-flash new.dfu > out 2> err
expect "try: $(tail -n 1 out)" test $? -eq 0
kill "$tried"
wait "$tried"
expect 'try: it ended' test $? -eq 0
sed 's/^/    /' tried
sed 's/^/    /' out
expect 'try: nothing stays' test ! -e /sys/kernel/config/usb_gadget/upgrade -a ! -e /sys/bus/usb/devices/1-1
finish
