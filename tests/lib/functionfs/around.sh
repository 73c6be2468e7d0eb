# The command of --on-installed, the log, and how the program ends.
# shellcheck shell=sh disable=SC2034,SC2154

# The command of --on-installed: what it is given, and where it ends badly or can't be run.
cat > ./command << 'END'
#!/bin/sh
echo "$# $1 $2 $3" > given
dd if="$1" bs=1 skip="$2" count="$3" 2> /dev/null > placed
cat > typed
kill -0 $$ && exit "${COMMAND_STATUS:-0}"
END
chmod +x command
fresh
row 'a command' "$timed --on-installed ./command" << END
setup a105000000000100 => upgrade joins / a105 02
$download
image =>
setup a105000000000100 => a105 02
END
is 'a command: what it is given' grep -qx '3 medium 8224 26' given
is 'a command: the image is there' cmp -s placed new
is 'a command: it reads nothing' test ! -s typed
is 'a command: its end' grep -q '^ended: process [0-9]* with status 0$' err
COMMAND_STATUS=3
export COMMAND_STATUS
row 'a command that fails' "$timed --on-installed ./command" << END
setup a105000000000100 => upgrade joins / a105 02
$download
image =>
END
unset COMMAND_STATUS
is 'a command that fails: its end' grep -q '^ended: process [0-9]* with status 3$' err
is 'the other slot' grep -qx '3 medium 32 26' given
row 'a command that is not there' "$timed --on-installed ./nowhere" << END
setup a105000000000100 => upgrade joins / a105 02
$download
image =>
setup a105000000000100 => a105 02
END
is 'a command that is not there' grep -q '^dfu-gadget: ./nowhere can.t be run: No such file or directory$' err
cat > slow << 'END'
#!/bin/sh
while [ -e hold ]; do sleep 0.02; done
echo "$2 $3" >> both
kill -KILL $$
END
chmod +x slow
: > hold
fresh
row 'an image that comes while a command runs' "$timed --on-installed ./slow" << END
setup a105000000000100 => upgrade joins / a105 02
$download
setup 2104000000000000 => 2104 stall
setup 2104000000000000 => 2104 ok
$download
sh rm hold =>
image =>
image =>
END
equal 'an image that comes while a command runs' '8224 26 32 26' "$(tr '\n' ' ' < both | sed 's/ $//')"
is 'a command that is killed: its end' grep -q '^ended: process [0-9]* by signal 9$' err
row 'a download that changes nothing runs no command' '--dfu-mode --on-installed ./nowhere' << END
setup a102000000002000 => upgrade joins / a102 $(hex new)
reset => upgrade leaves / application joins
END
is 'no command' test "$(grep -c 'nowhere' err)" -eq 0

# The log of --verbose=FILE: the lines for readers, and those for `dfu judge`, which finds that the device keeps DFU 1.1.
for rows in "$download" "$stalled" "$early
$upload"; do
    fresh
    rm -f session.log
    log="=session.log"
    row 'a log' "$timed --transfer-size 64" << END
setup a105000000000100 => upgrade joins / a105 02
$rows
reset => upgrade leaves / application joins
END
    is 'a log: a line for readers' grep -q '^# 1 GETSTATE 0 1 02 dfuIDLE 0$' session.log
    is 'a log: the reset' test "$(grep -c '^reset$' session.log)" -eq 1
    is 'a log: it is not on standard error' test "$(grep -c GETSTATE err)" -eq 0
    equal 'a log: the judge' kept "$("$dfu" judge session.log | tail -n 1 | sed 's/ events.*//')"
    play --dfu-mode < /dev/null
    equal 'a log that is there' 3 "$code"
    is 'a log that is there' grep -q "^dfu-gadget: session.log can't be made: File exists$" err
    log=
done

# A kernel that takes no such descriptors, a file that is made shorter, and signals.
fresh
GADGET_OLD_KERNEL=1
export GADGET_OLD_KERNEL
play '' < /dev/null
unset GADGET_OLD_KERNEL
equal 'an old kernel' 4 "$code"
is 'an old kernel' grep -q 'Linux takes them from 6.11 on' err
# ends STATUS TEXT STEP: after the step the program ends so, by itself.
ends() {
    fresh
    printf '%s\n' 'setup a105000000000100' "$3" 'setup a102000000000500' 'wait 100' > rows
    play --dfu-mode < rows
    equal "$3" "$1" "$code"
    is "$3" grep -q -e "$2" err
}
ends 6 'upgrade: somebody else has taken it off the bus' unbind
ends 5 "the medium can't be read any more" 'sh : > medium'
ends 0 'ended: by signal 2' 'signal 2'
ends 0 'ended: by signal 1' 'signal 1'
ends 0 'ended: by signal 15' 'signal 15'
fresh
printf '%s\n' 'signal 1' 'setup a105000000000100' > rows
program='env --ignore-signal=HUP ./gadget' play --dfu-mode < rows
is 'a terminal that is closed, which it was told not to mind' grep -q '^1 GETSTATE' err
program=./gadget
