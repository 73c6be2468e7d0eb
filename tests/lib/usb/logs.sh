# Rows of tests/apps/flash: the log of --verbose=FILE. For readers it has the lines of --verbose; and `dfu judge` keeps what the proved
# device answered, whatever was lost, and U-Boot's rules by their habit.

# judged WANTED: the last line that `dfu judge` prints of the log begins so.
judged() {
    case $("$dfu" judge session.log | tail -n 1) in
    "$1 events"*) true ;;
    *) false ;;
    esac
}
for settings in USB_START=app 'USB_START=app USB_ATTRIBUTES=0f USB_DETACH=5' USB_ATTRIBUTES=05 USB_CAPACITY=13 USB_DEVICE=uboot; do
    for fate in '' 'lost-out 1' 'lost-back 4' 'leave 1' 'leave 2,lost-out 7' 'leave 4' 'leave 20'; do
        rm -f session.log
        flash "$settings" --quiet --verbose=session.log new.dfu
        case $settings in *uboot) verdict='kept by bootloader' ;; *) verdict=kept ;; esac
        expect "a log of $settings with $fate: $verdict" judged "$verdict"
        expect "a log of $settings with $fate: nothing else is said" test ! -s err
        sed -n 's/^# [0-9]* \([A-Z]* [0-9]* [0-9]* [^ ]*\) .*/\1/p' session.log | grep -v '^WAIT\|^RESET' > found
        heard > wanted
        expect "a log of $settings with $fate: its requests" diff wanted found
        expect 'each has a line for the judge' test "$(grep -c '^[0-9a-f]\{16\} ' session.log)" -eq "$(wc -l < wanted)"
    done
done
fate=

# A state that is none of the standard's there.
sed '0,/000000000200$/s//000000000900/' session.log > wrong.log
expect 'a wrong answer in a log' test "$("$dfu" judge wrong.log | sed -n '1s/ .*//p')" = departs

# What is there stays, but for what loses nothing by it. Nothing is sent where there is no log.
row 3 old '' '' --verbose=session.log new.dfu
says 'session.log can'\''t be made: it is there already'
expect 'a log that is there: nothing is sent' is_silent
ln -s elsewhere link-of-log
row 3 old '' '' --verbose=link-of-log new.dfu
expect 'a link to nothing is not followed' test ! -e elsewhere
row 3 old '' '' --verbose=nowhere/log new.dfu
row 3 old '' '' --verbose=. new.dfu
row 2 - '' '' --verbose= new.dfu
row 2 - '' '' --list --verbose=x.log
expect 'no log of a list' test ! -e x.log
row 0 old '' '' --dry-run --verbose=x.log new.dfu
expect 'no log of a dry run' test ! -e x.log
mkfifo log-pipe
cat log-pipe > piped &
row 0 new 'verified: ' '' --quiet --verbose=log-pipe new.dfu
wait
expect 'a pipe' grep -q '^# begin verified' piped

# The last line has the report, the status and the time.
ends_with() {
    tail -n 1 session.log | grep -q "^# end $1 20[0-9]*-[0-9]*-[0-9]*T[0-9]*:[0-9]*:[0-9]*Z\$"
}
# last REPORT STATUS SETTINGS WORDS..
last() {
    report=$1 status=$2
    shift 2
    rm -f session.log
    flash "$@" --verbose=session.log
    expect "$*: a log's last line: $(tail -n 1 session.log)" ends_with "$report $status"
}
last verified 0 '' new.dfu
last verified 0 '' --json new.dfu
last unconfirmed 8 USB_ATTRIBUTES=01 new.dfu
last refused 6 USB_CAPACITY=13 new.dfu
last gave-up 7 '' --limits 3 0 new.dfu
last detached 0 USB_START=app --detach
last uploaded 0 '' --upload logged
fate='leave 5'
last gone 10 USB_AWAY=220 new.dfu
last verified 0 USB_AWAY=220 --retry 1 new.dfu
expect 'one such line of two sessions' test "$(grep -c '^# begin' session.log)-$(grep -c '^# end' session.log)" = 2-1
fate=

# A log that was not written whole: the status and the record say so, and a session that failed keeps its own status.
row 3 new 'verified: ' '' --quiet --verbose=/dev/full new.dfu
says '/dev/full was not written whole: '
row 3 new 'verified: ' '' --verbose=/dev/full new.dfu
says 'next: make room, or name another place for the log: it lacks lines, and the device has what the report says'
row 3 new '{"status":3,"report":"verified",' '' --json --report cut.csv --verbose=/dev/full new.dfu
expect 'a record says it' grep -q ',"next":"make room, .*,"log_whole":false}$' out
expect 'so does the report' grep -q ',3,"verified",' cut.csv
row 3 new 'unconfirmed: ' USB_ATTRIBUTES=01 --verbose=/dev/full new.dfu
row 6 old '{"status":6,"report":"refused",' USB_CAPACITY=13 --json --verbose=/dev/full new.dfu
expect 'a record says it' grep -q ',"log_whole":false}$' out
rm -f session.log
row 0 new '{"status":0,' '' --json --verbose=session.log new.dfu
expect 'of a whole one it says nothing' test "$(grep -c log_whole out)" -eq 0
[ -n "${NO_ALL-}" ] || . "$top/tests/lib/usb/logs_all.sh"

