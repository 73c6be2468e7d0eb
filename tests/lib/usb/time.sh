# Rows of tests/apps/flash: how a wait ends at a signal, --timeout, --wait, and the trace of --verbose.

last_request() {
    grep '^[0-9]' log | tail -n 1 | cut -d ' ' -f 2
}

# at_once SIGNAL TEXT SETTINGS WORDS..: as `stopped`; on a machine that is too slow for the four seconds it is tried again.
at_once() {
    for _ in 1 2 3 4 5; do
        stopped "$@"
        [ "$took" -gt 4 ] || break
    done
}

# A wait that the device asks for ends at once, and ABORT is sent; one of over 10 seconds is said.
for signal in INT TERM; do
    at_once $signal 'asks for a wait' USB_BUSY=16777215 new.dfu
    expect "$signal in a wait" test "$code" -eq 11
    expect "$signal in a wait: at once" test "$took" -le 4
    expect "$signal in a wait: ABORT" test "$(last_request)" = ABORT
    expect "$signal in a wait: the old image" cmp old saved
    says 'dfu-flash: the device asks for a wait of 4 h 39 min 37 s'
done
stopped INT ', dfuDNBUSY' USB_BUSY=16777215 --quiet new.dfu
expect 'quiet: the wait is not said' test ! -s err
stopped INT 'asks for a wait' 'USB_MANIFEST=75000 USB_ATTRIBUTES=01' new.dfu
expect 'a signal while it is written' test "$code-$(last_request)" = 11-ABORT
says 'dfu-flash: the device asks for a wait of 1 min 15 s'
stopped INT 'asks for a wait' 'USB_START=app USB_ATTRIBUTES=0f USB_DETACH=20000' new.dfu
expect 'a signal behind a DETACH' test "$code" -eq 11
says 'dfu-flash: the device asks for a wait of 20 s'
row 0 new 'verified: ' USB_BUSY=200 new.dfu
expect 'a short wait is not said' test "$(grep -c 'a wait of' err)" -eq 0
# A wait for a device that left ends at once, too.
fate='leave 3'
at_once INT 'no device' USB_AWAY=100000 new.dfu
expect 'a signal while it is away' test "$code-$(tail -n 1 out | cut -d : -f 1)" = 11-aborted
expect 'a signal while it is away: at once' test "$took" -le 4
fate=
# A transfer is waited for; a second signal of the kind ends the program, and the device stays as it is.
code=0
rm -f log
env LD_LIBRARY_PATH="$work" USB_SLOW=9000 USB_LOG="$work/log" ./dfu-flash new.dfu > out 2> err &
soon test -s log
kill -INT "$!" || :
soon is_taken "$!"
sleep 0.2
kill -INT "$!" || :
wait "$!" || code=$?
expect 'a second Ctrl-C' test "$code" -eq 130
expect 'a second Ctrl-C: no report' test ! -s out

# timeout sends its signal twice, to the program and to its group: those within 100 ms are one signal. A busy machine can make more of it,
# so a try counts only where `twice` found that the program took them in time, and there are up to thirty.
gcc -std=c11 -Wall -Wextra -Werror "$top/tests/lib/usb/signals/twice.c" -o twice
is_in_time=
for _ in $(seq 30); do
    code=0
    rm -f log
    env LD_LIBRARY_PATH="$work" USB_SLOW=1000 USB_LOG="$work/log" ./dfu-flash new.dfu > out 2> err &
    soon test -s log
    ./twice "$!" && is_in_time=yes
    wait "$!" || code=$?
    [ -z "$is_in_time" ] || break
done
expect 'a program that takes three signals within 60 ms' test -n "$is_in_time"
expect 'a signal that comes twice at once' test "$code-$(last_request)" = 11-ABORT

# --timeout: the session is broken off as by a signal, wherever it is; the time of a session that is over is not waited for.
row 7 old 'timed-out: the time is spent' USB_BUSY=16777215 --timeout 1 new.dfu
expect 'time is spent: ABORT' test "$(last_request)" = ABORT
row 7 old 'timed-out: ' USB_BUSY=400 --timeout 1 new.dfu
row 7 - '{"status":7,"report":"timed-out",' USB_BUSY=60000 --json --timeout 1 new.dfu
fate='leave 3'
row 7 old 'timed-out: ' USB_AWAY=100000 --timeout 1 new.dfu
fate=
row 7 old 'timed-out: ' USB_SLOW=700 --timeout 1 --upload never
expect 'time is spent: no file' test ! -e never
row 0 new 'verified: ' '' --timeout 30 new.dfu
stopped ALRM 'asks for a wait' USB_BUSY=16777215 new.dfu
expect 'an alarm of another program' test "$code" -eq 142

# --wait: for a device that comes, with the rights that come behind it; not where two are there.
row 4 old '' USB_ABSENT=3 new.dfu
row 0 new 'verified: ' USB_ABSENT=3 --wait new.dfu
says 'dfu-flash: waiting for the device; Ctrl-C ends it'
row 0 new 'verified: ' 'USB_ABSENT=3 USB_START=app' --wait=30 new.dfu
says 'dfu-flash: waiting for the device for up to 30 s; Ctrl-C ends it'
row 0 old 'uploaded: ' USB_ABSENT=3 --wait --quiet --upload late
expect 'quiet: what is waited for is not said' test ! -s err
row 4 old '' USB_ABSENT=100000 --wait=1 new.dfu
says 'no device with DFU'
row 0 new 'verified: ' 'USB_DENIED=3 USB_DENIALS=5' --wait new.dfu
row 5 old '' 'USB_DENIED=3 USB_ABSENT=2' --wait new.dfu
says 'may not be opened: LIBUSB_ERROR_ACCESS'
row 12 old '' 'USB_DEVICES=2' --wait new.dfu
row 0 new 'verified: ' 'USB_DEVICES=2 USB_ABSENT=3' --wait --serial F1 new.dfu
row 4 old '' 'USB_ABSENT=100000 USB_DEVICES=2' --wait=1 --serial F1 new.dfu
for words in --wait --wait=30; do
    at_once INT 'waiting for the device' USB_ABSENT=100000 $words new.dfu
    expect "$words: a signal" test "$code" -eq 130
    expect "$words: nothing is sent" is_silent
    expect "$words: at once" test "$took" -le 4
done
# It also waits longer for a device that left. (Without --wait it looks at most 200 times in its 10 seconds; a slow machine has 50 for 215.)
fate='leave 3'
row 0 new 'installed: ' USB_AWAY=215 --wait=50 --no-verify new.dfu
says 'dfu-flash: the device is away; it is waited for up to 50 s'
fate=

for words in '--wait=0 new.dfu' '--wait=x new.dfu' '--wait= new.dfu' '--wait=1000001 new.dfu' '--wait 1000001 new.dfu' \
    '--timeout 0 new.dfu' \
    '--timeout x new.dfu' '--timeout 1000001 new.dfu' '--timeout new.dfu' '--list --wait' '--list --timeout 1' '--list --verbose=x'; do
    # shellcheck disable=SC2086
    row 2 - '' '' $words
done

# The trace of --verbose: a whole one, but for the milliseconds that an action took.
trace() {
    grep -v ': ' err | sed 's/^\([0-9].*\) [0-9]*$/\1/'
}
cat > wanted << 'END'
begin verified 1209:0001:0100 1-1 0 0 run-time 092107e80310001001 16 380 3
1 GETSTATUS 0 6 000000000000 appIDLE
2 DETACH 1000 0 ack -
3 RESET 0 0 reset -
4 GETSTATUS 0 6 000000000200 dfuIDLE
5 DNLOAD 0 16 ack -
6 GETSTATUS 0 6 00b70b000400 dfuDNBUSY
7 WAIT 2999 0 waited -
8 GETSTATUS 0 6 000000000500 dfuDNLOAD-IDLE
9 DNLOAD 1 10 ack -
10 GETSTATUS 0 6 00b70b000400 dfuDNBUSY
11 WAIT 2999 0 nothing -
abort
12 ABORT 0 0 stall -
END
# (a machine on which the signal comes after the wait of 2999 ms is too slow for it, and it is tried again)
for _ in 1 2 3 4 5; do
    stopped INT '^10 GETSTATUS' 'USB_TRANSFER=16 USB_START=app USB_BUSY=2999' --verbose new.dfu
    grep -q '^11 WAIT 2999 0 waited' err || break
done
trace > found
expect 'a trace' diff wanted found
expect 'its milliseconds' grep -q '^7 WAIT 2999 0 waited - \(2999\|[3-9][0-9][0-9][0-9]\|[1-9][0-9]\{4\}\)$' err

# And each transfer as the stand-in saw it, with all that can become of one.
heard() {
    sed -n 's/^[0-9]* \([A-Z]* [0-9]* [0-9]*\)[a-z -]* -> \(.*\), .*/\1 \2/p' log | sed 's/ ok$/ ack/; s/timeout$/nothing:TIMEOUT/
        s/no device$/restarted/' | awk 'NF == 3 || ($4 ~ /^[0-9a-f]*$/ && length($4) > 16) { $4 = length($4) / 2 "-bytes" } { print }'
}
for fate in '' 'lost-out 1' 'lost-back 4' 'short 3 2' 'short 14 0' 'leave 4' 'leave 2,lost-out 7' 'twice 1'; do
    for words in new.dfu '--no-verify new.dfu'; do
        for settings in USB_START=app USB_DEVICE=uboot 'USB_TRANSFER=13 USB_ATTRIBUTES=03' 'USB_CAPACITY=13'; do
            # shellcheck disable=SC2086
            flash "$settings" --verbose $words
            trace | sed -n 's/^[0-9]* \([A-Z]* [0-9]* [0-9]* [^ ]*\) .*/\1/p' | grep -v '^WAIT\|^RESET' > found
            heard > wanted
            expect "a trace of $settings $words with $fate" diff wanted found
            expect 'as many as transfers' test "$(wc -l < wanted)" -gt 5
        done
    done
done
fate=
