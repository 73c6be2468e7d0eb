# shellcheck disable=SC2089,SC2090
# Rows of tests/apps/flash: a device whose interface tells a version and a trial, as `1.1.0, on trial, 2 starts left`.

trial='1.1.0, on trial, 2 starts left'
export USB_IDS=1209:0001:0110
export USB_NAME="$trial"
front='1209:0001 path 1-1 serial F1 interface 0 alt 0'
behind='blocks of 8, download, upload, tolerant, release 0110'
row 0 - "$front \"$trial\" DFU mode, $behind" '' --list
row 0 - "$front \"$trial\" run-time mode, $behind" USB_START=app --list
recorded='"name":"1.1.0, on trial, 2 starts left","version":"1.1.0","trial":"on trial, 2 starts left"'
row 0 - '{"vendor":"1209","product":"0001","release":"0110",' '' --list --json
expect 'the record of a list' grep -qF "$recorded" out
row 0 new '{"status":0,"report":"verified",' '' --json new.dfu
expect 'the record of a session' grep -qF "$recorded" out
export USB_NAME=1.1.0
row 0 - '{"vendor":"1209",' '' --list --json
expect 'a version alone' grep -qF '"name":"1.1.0","version":"1.1.0","mode"' out
# What only looks like one is a name.
for name in stand-in 1 1. .1 1.1.x '1.1.0 on trial' v1.1.0 1..0 '' ',' 1,1.0; do
    export USB_NAME="$name"
    row 0 - '{"vendor":"1209",' '' --list --json
    expect "no version: $name" eval '! grep -q "\"version\"\|\"trial\"" out'
    row 0 - '1209:0001 path 1-1 serial F1 interface 0 alt 0 ' '' --list
    expect "no release: $name" eval '! grep -q release out'
done

# The string may have any bytes: what a terminal would take for a command is escaped, and in a record it stays JSON.
export USB_NAME='1.1.0, \u001b[2J\u0007\u000a\u202e"\u005c\u00e4\ud800\u0085'
row 0 - '1209:0001 path 1-1 serial F1 interface 0 alt 0 "1.1.0, \x1b[2J\x07\x0a\xe2\x80\xae"' '' --list
expect 'no control character' eval '! grep -q "$(printf "\033")" out && test "$(wc -l < out)" -eq 1'
row 0 - '{"vendor":"1209",' '' --list --json
expect 'a record of it' grep -qF '"version":"1.1.0","trial":"\u001b[2J\u0007\u000a\u202e\"\\ä\ufffd\ufffd\ufffd\u0085"' out
export USB_NAME='1.1.0, \u0000on trial'
row 0 - '{"vendor":"1209",' '' --list --json
expect 'a NUL ends it' grep -qF '"name":"1.1.0, ","version":"1.1.0","trial":""' out
long=1.1.1.1.1.1.1.1.1.1.
long=$long$long$long$long$long
export USB_NAME="${long}1"
row 0 - '{"vendor":"1209",' '' --list --json
expect 'a long version' grep -qF "\"version\":\"${long}1\"" out

# A device is the same one if its version or its trial changed meanwhile; and another one if another name has changed.
export USB_NAME=1.0.0 USB_NEXT_NAME='1.0.0, next on trial, 3 starts left'
for mode in dfu app; do
    for attributes in 07 03 0f; do
        row 0 new 'verified: ' "USB_START=$mode USB_ATTRIBUTES=$attributes" new.dfu
    done
done
export USB_NAME="$trial" USB_NEXT_NAME=1.2.0
row 0 new 'verified: ' '' new.dfu
for names in 'one two' '1.1.0 two' 'one 1.1.0'; do
    export USB_NAME="${names% *}" USB_NEXT_NAME="${names#* }"
    row 13 - 'other: ' '' new.dfu
done
unset USB_IDS USB_NAME USB_NEXT_NAME
