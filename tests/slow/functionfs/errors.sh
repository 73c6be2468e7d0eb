# What runs in the machine: writes of the medium that fail, by the kernel's device mapper. The host is told errWRITE, the old image
# stands, and a download after it succeeds.
# shellcheck shell=sh disable=SC2154
# shellcheck source=tests/slow/functionfs/common.sh
. ./common.sh
export DM_DISABLE_UDEV=1 # no rule of udev answers dmsetup here
printf 'the old image' > old
# A byte stands in front that no prefix of dfu-prefix begins with: dfu-util's programs would take that for no part of the image.
{ printf D; head -c 12000 /dev/urandom; } > one
{ printf D; head -c 12006 /dev/urandom; } > two
suffixed one two
disk=/dev/vda
sectors=$(blockdev --getsz $disk)
whole="0 $sectors linear $disk 0"
slot=$((sectors / 2)) # the slot that stands behind the one that format makes active

# The disk by the device mapper: whole, or with writes that fail, or with reads that fail too.
echo "$whole" | dmsetup create medium
medium=/dev/dm-0
table() {
    dmsetup suspend medium
    dmsetup reload medium
    dmsetup resume medium
}
mend() {
    echo "$whole" | table
}
# breaks FROM COUNT [TARGET]: these sectors.
breaks() {
    behind=$(($1 + $2))
    {
        [ "$1" -eq 0 ] || echo "0 $1 linear $disk 0"
        case ${3-} in
        error) echo "$1 $2 error" ;;
        *) echo "$1 $2 flakey $disk $1 0 1 1 error_writes" ;;
        esac
        [ "$behind" -eq "$sectors" ] || echo "$behind $((sectors - behind)) linear $disk $behind"
    } | table
}
# stands WHAT NAME: the image that the disk has, whatever stands in the kernel's memory of it.
stands() {
    sync
    echo 3 > /proc/sys/vm/drop_caches
    ./dfu-gadget image $disk > saved
    expect "$1: the disk has $2" cmp saved "$2"
}
fresh() {
    mend
    ./dfu-gadget format --force $medium --most 64K old
}
# refuses WHAT COMMAND..: the host is told.
refuses() {
    what=$1
    shift
    "$@" > out 2> err
    code=$?
    tail -n 1 out
    case $1 in
    *dfu-flash) expect "$what: dfu-flash says so" test "$code" -eq 6 -a -n "$(grep errWRITE out)" ;;
    *) expect "$what: dfu-util says so" test "$code" -eq 74 -a -n "$(grep 'unable to write memory' out err)" ;;
    esac
    expect "$what: the log says so" grep -q 'was not written: Input/output error' log
}
# works WHAT NAME: a download.
works() {
    ./dfu-flash "$2.dfu" > out 2> err
    expect "$1: $(tail -n 1 out)" test $? -eq 0
}

./set-up 0x1209 0x0001 0x0100 F1
# Nothing of the slot can be written; the third sector of the image; what begins the slot, which is written last. A sector is of 4,096
# bytes here, 8 of the disk's.
for places in "$slot $slot" "$((slot + 16)) 8" "$slot 8"; do
    fresh
    start --dfu-mode
    # shellcheck disable=SC2086
    breaks $places
    refuses "sectors $places" ./dfu-flash one.dfu
    stands "sectors $places" old
    refuses "sectors $places" dfu-util -D one.dfu
    stands "sectors $places" old
    mend
    works "sectors $places, mended" one
    stop
    expect "sectors $places: it ended" test "$ended" -eq 0
    stands "sectors $places, mended" one
done

# What an earlier program could not write is in the kernel's memory for as long as somebody has the disk open. It isn't taken for what the
# disk has.
dd if=$disk of=spare bs=512 skip="$slot" count="$slot" 2> said
fresh
dd if=spare of=$medium bs=512 skip=8 seek=$((slot + 8)) conv=fsync 2> said
# shellcheck disable=SC2217 # (it holds the file open)
sleep 1000 < $medium &
holder=$!
breaks "$slot" 8
dd if=spare of=$medium bs=512 count=8 seek="$slot" conv=fsync 2> said
expect 'it was not written' test $? -ne 0
./dfu-gadget image $medium > saved
expect 'the kernel has it' cmp saved one
start --dfu-mode
rm -f up
./dfu-flash --upload up > out 2> err
expect 'dfu-gadget serves what the disk has' cmp up old
stop
kill "$holder"

# The very last write, which makes the new image active. Once the first block is written, a write of its sector takes a second. Right
# after the answer that says dfuMANIFEST there are two, and the program is stopped (SIGSTOP) within the first, and the sector fails from
# then on.
fresh
start '--dfu-mode --manifest 3000 --busy 300'
{
    echo "0 $slot linear $disk 0"
    echo "$((slot + 8)) $((sectors - slot - 8)) linear $disk $((slot + 8))"
} > around
mend
./dfu-flash one.dfu > out 2> err &
flash=$!
until grep -q 'DNLOAD 1 .* ack' log; do usleep 20000; done
sed "1a $slot 8 delay $disk $slot 0 $disk $slot 1000" around | table
until grep -q 'GETSTATUS .* dfuMANIFEST ' log; do usleep 20000; done
sleep 0.3
kill -STOP "$device"
sleep 1
breaks "$slot" 8
kill -CONT "$device"
wait "$flash"
expect "the last write: $(tail -n 1 out)" test $? -eq 6
expect 'the last write: the log says so' grep -q 'was not written: Input/output error' log
stands 'the last write' old
mend
# A download after it, in the midst of which the power goes: it may not go into the slot of the image that the disk has active.
./dfu-flash two.dfu > out 2> err &
flash=$!
until [ "$(grep -c 'DNLOAD 1 .* ack' log)" -eq 2 ]; do usleep 20000; done
kill -9 "$device"
wait "$device" 2> /dev/null
stands 'behind the last write, and killed' old
start --dfu-mode
wait "$flash"
expect "it serves again: $(tail -n 1 out)" test $? -eq 0
stop
stands 'it serves again' two

# A medium that can't be read: it ends by itself, and leaves the bus.
fresh
breaks 0 "$sectors" error
echo 3 > /proc/sys/vm/drop_caches
./dfu-gadget run $medium --controller $udc 2> log
expect 'a medium that gives nothing' test $? -eq 5
expect 'it says so' grep -q "the medium can't be read any more" log
mend
stands 'a medium that gives nothing' old
./set-up --remove
finish
