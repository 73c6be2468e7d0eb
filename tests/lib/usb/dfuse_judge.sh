# Rows of tests/apps/dfuse: what `dfu judge --dfuse` says of sessions with the stand-in's device of DfuSe. It keeps what that device
# answers, to dfu-flash and to dfu-util, whatever is lost; of a log in which one answer is another one it names the line. tests/apps/dfuse
# has read tests/lib/usb/dfuse.sh.
# shellcheck shell=sh disable=SC2034,SC2154,SC2086
maps=$pages

# judged LOG: the first line that `dfu judge --dfuse` prints of the log, without what stands behind the request or the verdict.
judged() {
    "$dfu" judge --dfuse "$1" | sed -n '1s/ \(in\|events\) .*//p'
}
# recorded SETTINGS WORDS..: a session of dfu-flash, and its log.
recorded() {
    kind=$1
    shift
    rm -f session.log
    dfuse "$kind" --quiet --verbose=session.log "$@"
}
# keeps WHAT: the log is one of a DfuSe device, and has requests.
keeps() {
    equal "$1" kept "$(judged session.log)"
    is "$1: requests" test "$(grep -c '^[0-9a-f]\{16\} ' session.log)" -gt 4
}
# of_usb: the lines of the stand-in's log, as `dfu judge` reads them; bodies are zeros.
of_usb() {
    awk 'function bytes(n) { return sprintf("%02x%02x", n % 256, int(n / 256)) }
        BEGIN { kind["DETACH"] = 2100; kind["DNLOAD"] = 2101; kind["UPLOAD"] = "a102"; kind["GETSTATUS"] = "a103"
            kind["CLRSTATUS"] = 2104; kind["GETSTATE"] = "a105"; kind["ABORT"] = 2106 }
        /^reset/ { print "reset" }
        /^[0-9]/ {
            body = "-"
            if ($2 == "DNLOAD" && $4 > 0) { body = ""; for (n = 0; n < $4; n++) body = body "00" }
            answer = $0; sub(/.* -> /, "", answer); sub(/,.*/, "", answer)
            if (answer == "ok" || answer == "") answer = "ack"
            if (answer == "timeout" || answer == "no device" || answer == "error") answer = "nothing"
            print kind[$2] bytes($3) "0000" bytes($4), body, answer
        }' "$1"
}

write_here 3072 3000
for kind in '' 'USB_ERASE=1 USB_BUSY=1' 'USB_ERASE=1 USB_BUSY=1 USB_TOLD=nothing' \
    'USB_EARLY=stall USB_TOLD=nothing USB_ERASE=3 USB_BUSY=1' \
    'USB_CELLS=any USB_POINTER=erase' USB_PENDING=08000000 'USB_AWAY=2 USB_ERASE=1' USB_TRANSFER=64 'USB_TRANSFER=64 USB_CELLS=fail' \
    USB_FAILS=3 USB_PROTECTED=1 USB_LIES=08000d00; do
    for fate in '' 'lost-out 5' 'lost-back 6' 'lost-out 9,lost-back 10' 'twice 6' 'leave 2' 'leave 9' 'leave 30' \
        'cut 7' 'cut 12,leave 14'; do
        recorded "$kind" --address "$address" image
        keeps "a log of $kind with $fate"
    done
done
fate='leave 9'
recorded USB_TRANSFER=64 --address 0x08000000 --length 4096 --upload judged
keeps 'a log of an upload'
fate=
random 9 > short
elements_here 0x800=short 0x1390=image
recorded '' some.dfu
keeps 'a log of a DfuSe file'
write_here 3072 3000
recorded 'USB_ERASE=1 USB_BUSY=1' --address "$address" image
cp session.log clean.log

# By DFU 1.1 alone the device departs: it leaves by a DNLOAD of no bytes from dfuIDLE.
is 'without --dfuse' test "$("$dfu" judge clean.log | tail -n 1 | cut -d ' ' -f 1)" = not

# changed LINE ANSWER REQUEST: with another answer there the device departs at this line, and not before.
changed() {
    sed "$1s/ [^ ]*\$/ $2/" clean.log > wrong.log
    equal "line $1 is $2" "departs $1 $3" "$(judged wrong.log)"
}
for line in $(grep -n '^a103' clean.log | cut -d : -f 1); do
    # A state that is none, dfuERROR with the code OK, a code in another state, a state of another request, and an answer that is cut.
    for answer in 000000000b00 000000000a00 030000000500 000000000900 000000; do
        changed "$line" "$answer" GETSTATUS
    done
done
for line in $(grep -n '^a102' clean.log | cut -d : -f 1); do
    # An answer that is longer than was asked for.
    length=$(sed -n "${line}s/^.\{12\}\(..\)\(..\).*/\2\1/p" clean.log)
    changed "$line" "$(printf "%0$((2 * (0x$length + 1)))d" 0)" UPLOAD
done
# GETSTATE may be stalled while a command runs, and not behind it; DNLOAD always.
running=$(grep -n '^a103.*0400$' clean.log | head -n 1 | cut -d : -f 1)
ended=$(grep -n '^a103.*0500$' clean.log | head -n 1 | cut -d : -f 1)
sed "${running}a a105000000000100 - stall" clean.log > stalled.log
equal 'GETSTATE is stalled while a command runs' kept "$(judged stalled.log)"
sed "${ended}a a105000000000100 - stall" clean.log > stalled.log
equal 'GETSTATE is stalled behind it' "departs $((ended + 1)) GETSTATE" "$(judged stalled.log)"
sed "${ended}a 2101000000000800 0000000000000000 stall" clean.log > stalled.log
equal 'a DNLOAD that is stalled' kept "$(judged stalled.log)"

# dfu-util's requests, as the stand-in logged them.
if command -v dfu-util > /dev/null; then
    for kind in '' 'USB_ERASE=1 USB_BUSY=1' USB_TRANSFER=64; do
        for words in "-s $address:leave -D image" "-s $address -D image" "-s $address:3000 -U up"; do
            rm -f log up
            env LD_LIBRARY_PATH="$work" USB_DEVICE=dfuse USB_MAPS="$maps" USB_IMAGE="$work/old" USB_LOG="$work/log" $kind \
                timeout 60 dfu-util -a 0 $words > out 2>&1 || :
            of_usb log > session.log
            keeps "dfu-util $words, $kind"
        done
    done
fi
