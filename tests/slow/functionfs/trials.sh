# What runs in the machine: images on trial, over the kernel's FunctionFS and a disk. What dfu-gadget's start, confirm and end do while
# `run` has the device on the bus; what a host lists meanwhile; a download that a killed daemon breaks off; and the example that starts
# images.
# shellcheck shell=sh disable=SC2154
# shellcheck source=tests/slow/functionfs/common.sh
. ./common.sh
./set-up 0x1209 0x0001 0x0110 F1
suffixed one two three
first_runs="8192 $(wc -c < one)"
second_runs="77824 $(wc -c < two)"

# fresh: `one` is confirmed, in the first slot; and nothing is in the other one.
fresh() {
    ./dfu-gadget format --force $medium --most 60K --tries 3 "${1-one}"
}
# flashes WHAT NAME: a host brings an image, and verifies it.
flashes() {
    ./dfu-flash "$2.dfu" > out 2> err
    expect "$1: $(tail -n 1 out)" grep -q '^verified: ' out
    is_back
}
# named WHAT NAME: both programs list the device by it.
named() {
    ./dfu-flash --list > out 2> err
    expect "$1: dfu-flash lists \"$2\"" grep -qF "\"$2\"" out
    dfu-util -l > out 2> err
    expect "$1: dfu-util lists \"$2\"" grep -qF "name=\"$2\"" out
}
# starts WHAT WANTED..: what `start` prints, time after time.
starts() {
    what=$1
    shift
    for wanted in "$@"; do
        found=$(./dfu-gadget start $medium --tries 3 2>&1)
        expect "$what: start prints $found" test "$found" = "$wanted"
    done
}
# other_mode: DETACH from the application, or none from DFU mode, and a reset: the gadget comes to the bus anew.
other_mode() {
    ./transfer 1-1 2100e80300000000 > said
    ./transfer 1-1 reset > said
    is_back
}
# has WHAT NAME: the image that a host reads while the device is on the bus.
has() {
    rm -f up
    ./dfu-flash --upload up > out 2> err
    expect "$1: a host reads $2" cmp up "$2"
    is_back
}

fresh
start '--tries 3'
named 'nothing on trial' 1.1.0
flashes 'a new image' two
named 'a new image' '1.1.0, next on trial, 3 starts left'
starts 'a new image' "$second_runs"
other_mode
named 'started once' '1.1.0, on trial, 2 starts left'
other_mode
starts 'an image that never confirms' "$second_runs" "$second_runs" "$first_runs" "$first_runs"
has 'an image that never confirms' one
expect 'it is said' grep -q 'trial: ended by another program$' log
stop
expect 'an image that never confirms: the disk' cmp saved one

fresh
start '--tries 3'
flashes 'an image that confirms' two
starts 'an image that confirms' "$second_runs"
./dfu-gadget confirm $medium 8192 --tries 3
expect 'the one before confirms nothing new' test $? -eq 0
./dfu-gadget confirm $medium 77824 --tries 3
expect 'it confirms' test $? -eq 0
other_mode
named 'it confirmed' 1.1.0
other_mode
starts 'it confirmed' "$second_runs" "$second_runs" "$second_runs" "$second_runs"
flashes 'a download over the older one' three
named 'a download over the older one' '1.1.0, next on trial, 3 starts left'
flashes 'a download while an image is on trial' one
expect 'it ends the trial, and says so' grep -q 'trial: ended by a download$' log
starts 'a download while an image is on trial' "$first_runs" "$first_runs" "$first_runs" "$second_runs"
has 'the confirmed image' two
flashes 'a trial that is ended' one
./dfu-gadget end $medium --tries 3
expect 'an end' test $? -eq 0
has 'an end' two
stop
expect 'dfu-gadget ends well' test "$ended" -eq 0

# The daemon is killed in a download while an image is on trial: whatever stands then, the confirmed image is whole, and it serves again.
names=
for turn in 1 2 3 4 5 6 7 8; do
    fresh
    start '--dfu-mode --tries 3'
    ./dfu-flash two.dfu > out 2> err
    is_back
    ./dfu-flash three.dfu > out 2> err &
    flash=$!
    usleep $((turn * 300000))
    kill -9 "$device"
    wait "$device" 2> /dev/null
    ./dfu-gadget image $medium > saved
    name=torn
    for whole in one two three; do
        ! cmp -s saved $whole || name=$whole
    done
    ./dfu-gadget end $medium --tries 3 2> err
    ./dfu-gadget image $medium > saved
    cmp -s saved one || name=$name-torn
    start '--dfu-mode --tries 3'
    wait "$flash"
    names="$names $name($?)"
    stop
done
echo "row killed:$names"
case $names in *torn*) failed=$((failed + 1)) ;; *) passed=$((passed + 1)) ;; esac

# The example that starts images: one that never confirms runs so often, and then the one before, which does.
printf '#!/bin/sh\necho broken "$DFU_AT" >> "$DFU_RAN"\nexit 3\n' > broken
cat > works << 'END'
#!/bin/sh
echo works "$DFU_AT" >> "$DFU_RAN"
exec "$DFU_GADGET" confirm "$DFU_MEDIUM" "$DFU_AT" --tries "$DFU_TRIES"
END
suffixed broken
export DFU_GADGET="$PWD/dfu-gadget" DFU_RAN="$PWD/ran"
fresh works
start '--tries 3'
flashes 'an image that fails' broken
stop
for wanted in 3 3 3 0 0; do
    ./on-start $medium > out 2>&1
    code=$?
    expect "on-start: status $code" test $code -eq $wanted
done
ran=$(tr '\n' ' ' < ran)
expect "on-start: $ran" test "$ran" = 'broken 77824 broken 77824 broken 77824 works 8192 works 8192 '
finish
