# What the host sends, and what comes back: requests, time and resets.
# shellcheck shell=sh disable=SC2034,SC2154

# A download in DFU mode, by a host that waits for the time that it was told, and the image uploaded.
timed='--dfu-mode --busy 20 --manifest 20'
download="setup 2101000000001a00 $(hex new) => 2101 ok
setup a105000000000100 => a105 03
setup a103000000000600 => a103 001400000400
wait 20 =>
setup a103000000000600 => a103 000000000500
setup 2101010000000000 => 2101 ok
setup a103000000000600 => a103 001400000700
wait 20 =>
setup a103000000000600 => a103 000000000200"
fresh
row 'a download' "$timed" << END
setup a105000000000100 => upgrade joins / a105 02
$download
setup a102000000002000 => a102 $(hex new)
END
holds 'a download' new
is 'a download: the descriptors of both modes' grep -q '^application protocol 1, functional 092107e80300101001$' said
is 'a download: the descriptors of both modes' grep -q '^upgrade protocol 2, functional 092107e80300101001$' said
is 'a download: the line of a request' grep -q '^1 GETSTATE 0 1 02 dfuIDLE 0$' err
is 'a download: the line of a block' grep -q '^2 DNLOAD 0 26 ack dfuDNLOAD-SYNC 0$' err
is 'a download: the line of an upload' grep -q '^9 UPLOAD 0 32 26-bytes dfuIDLE 0$' err
is 'a download: the line of time' grep -q '^time: 20 ms, dfuDNLOAD-SYNC$' err
is 'a download: the place of the image' grep -q '^installed: 26 bytes at 8224$' err
is 'a download: the block, the header, the gate' test "$(sed -n 's/^write //p' said | tr '\n' /)" = 8224\ 26/8208\ 16/8192\ 16/
row 'what was loaded stands' '--dfu-mode' << END
setup a102000000002000 => upgrade joins / a102 $(hex new)
END

# Where no time is told to the host, the writes come in the request that it asks with.
fresh
row 'no busy time' '--dfu-mode --busy 0 --manifest 0' << END
setup 2101000000001a00 $(hex new) => upgrade joins / 2101 ok
setup a103000000000600 => a103 000000000500
setup 2101010000000000 => 2101 ok
setup a103000000000600 => a103 000000000200
END
holds 'no busy time' new

# A data stage is acknowledged as it is taken, so what is stalled has to be stalled before it.
fresh
stalled="setup 2101000000004100 x65 => 2101 stall
setup a103000000000600 => a103 0f0000000a00
setup 2104000000000000 => 2104 ok
setup 210100000000ffff x65535 => 2101 stall
setup 2104000000000000 => 2104 ok
setup 2101000000000000 => 2101 stall
setup 2104000000000000 => 2104 ok
setup 2101000000004000 x64 => 2101 ok
setup 2101010000004000 x64 => 2101 stall
setup a103000000000600 => a103 0f0000000a00"
row 'stalls' '--dfu-mode --transfer-size 64' << END
setup a105000000000100 => upgrade joins / a105 02
$stalled
setup 2104000000000000 => 2104 ok
setup a102000000004100 => a102 stall
setup 2104000000000000 => 2104 ok
setup 21ff000000000000 => 21ff stall
setup 2104000000000000 => 2104 ok
setup 2100000000000300 x3 => 2100 stall
setup 2104000000000000 => 2104 ok
setup 4101000000000400 x4 => 4101 stall
setup c103000000000600 => c103 stall
setup a105000000000100 => a105 02
setup 2101000000004000 none => 2101 gave up
setup a105000000000100 => a105 02
END
holds 'stalls' old

# Run-time mode, DETACH, and its timer.
row 'a DETACH and its reset' '--detach-timeout 100' << END
setup a105000000000100 => application joins / a105 00
setup 2100640000000000 => 2100 ok
setup a105000000000100 => a105 01
reset => application leaves / upgrade joins
setup a105000000000100 => a105 02
reset => upgrade leaves / application joins
setup a105000000000100 => a105 00
END
row 'a timer that runs out' '--detach-timeout 100' << END
setup 2100640000000000 => application joins / 2100 ok
wait 99 =>
setup a105000000000100 => a105 01
wait 1 =>
setup a105000000000100 => a105 00
END
row 'it detaches by itself' '--attributes download,upload,tolerant,detach' << END
setup 2100640000000000 => application joins / 2100 ok
wait 1000 => application leaves / upgrade joins
setup a105000000000100 => a105 02
END

# A host that doesn't wait: what was due is written by then. Each ends with the new image.
early="setup 2101000000001a00 $(hex new) => 2101 ok
setup a103000000000600 => a103 001400000400
setup a103000000000600 => a103 000000000500
setup 2101010000000000 => 2101 ok
setup a103000000000600 => a103 001400000700"
upload="setup a102000000002000 => a102 stall
setup a103000000000600 => a103 0f0000000a00
setup 2104000000000000 => 2104 ok
setup a102000000002000 => a102 $(hex new)"
reset='reset => upgrade leaves / application joins'
# at_once WHAT ATTRIBUTES STEPS: after the answer that says dfuMANIFEST.
at_once() {
    fresh
    row "$1, $2" "$timed --attributes $2" << END
setup a105000000000100 => upgrade joins / a105 02
$early
$3
END
    holds "$1, $2" new
    is "$1, $2: the line of time" grep -q '^time: 20 ms, dfuMANIFEST-' err
}
for attributes in download,upload,tolerant download,tolerant; do
    at_once 'a GETSTATUS at once' $attributes 'setup a103000000000600 => a103 000000000200'
    at_once 'a reset at once' $attributes "$reset"
done
at_once 'an UPLOAD at once' download,upload,tolerant "$upload"
for attributes in download,upload download; do
    at_once 'a GETSTATUS at once' $attributes 'setup a103000000000600 => a103 stall'
    at_once 'an UPLOAD at once' $attributes 'setup a102000000002000 => a102 stall'
    at_once 'a reset at once' $attributes "$reset"
done
at_once 'a late reset at once' download 'reset; enable => upgrade leaves / application joins'
at_once 'a signal at once' download ''

# What --manifest is if it isn't given.
fresh
row 'the defaults' --dfu-mode << END
setup 2101000000001a00 $(hex new) => upgrade joins / 2101 ok
setup a103000000000600 => a103 000500000400
setup a103000000000600 => a103 000000000500
setup 2101010000000000 => 2101 ok
setup a103000000000600 => a103 000000000200
setup a102000000002000 => a102 $(hex new)
END
holds 'the defaults' new
fresh
row 'the defaults of a device that is not tolerant' '--dfu-mode --attributes download,upload --busy 20' << END
setup a105000000000100 => upgrade joins / a105 02
$early
$reset
END
holds 'the defaults of a device that is not tolerant' new

# Resets that the program sees at once, and those that it finds late: DISABLE is then dropped.
resets='setup a105000000000100 => upgrade joins / a105 02
alt =>
setup a105000000000100 => a105 02
suspend =>
resume =>
setup a105000000000100 => a105 02
alt; setup a105000000000100 => a105 02
suspend; resume; alt; setup a105000000000100 => a105 02'
two='alt; alt; setup a105000000000100 => a105 02
state =>
alt; alt; setup a105000000000100 => a105 02
setup a105000000000100; alt =>
setup a105000000000100 => a105 02'
late='reset; enable; suspend => upgrade leaves / application joins'
row 'a reset' --dfu-mode << END
$resets
$two
reset => upgrade leaves / application joins
END
row 'a late reset' --dfu-mode << END
$resets
$late
END
for steps in 'reset; enable' 'reset; enable; alt' 'reset; enable; setup a105000000000100' 'reset; enable; reset; enable' \
    'suspend; reset; enable' 'suspend; resume; reset; enable; setup a105000000000100' 'setup a105000000000100; reset; enable' 'disable'; do
    row "a late reset: $steps" --dfu-mode << END
setup a105000000000100 => upgrade joins / a105 02
$steps => upgrade leaves / application joins
setup a105000000000100 => a105 00
END
done
row 'a late reset behind a DETACH' '' << END
setup 2100e80300000000 => application joins / 2100 ok
reset; enable => application leaves / upgrade joins
setup a105000000000100 => a105 02
END
row 'a late reset of the application' '' << END
setup a105000000000100 => application joins / a105 00
reset; enable; setup a105000000000100 => a105 00
END

# Wrong programs: what hears DISABLE alone, what takes each ENABLE for a reset, what counts dropped events alone, and what takes each
# data stage. The rows above see each of them.
wrong_program() {
    rm -rf source
    cp -R "$top/apps/gadget" source
    sed -i "$2" "source/$1"
    is "a wrong $1: it differs" test -n "$(diff "$top/apps/gadget/$1" "source/$1")"
    rm -rf common
    cp -R "$top/apps/common" common
    compile wrong source/*.c
    program=./wrong
    fresh
    printf '%s\n' "$4" > rows
    play "${5:---dfu-mode --transfer-size 64}" < rows
    sed -n 's/.*=> *//p' rows | sed 's, / ,\n,g' | sed '/^$/d' > wanted
    sed '/^write \|protocol/d' said | sed '$d' > found
    is "$3" test -n "$(diff wanted found)"
    program=./gadget
}
first='setup a105000000000100 => upgrade joins / a105 02'
wrong_program function.c 's/is_enabled && may_be_reset/is_enabled \&\& may_be_reset \&\& false/' 'it hears DISABLE alone' "$first
$late"
wrong_program function.c 's/is_enabled && may_be_reset/is_enabled \&\& (may_be_reset || true)/' 'each ENABLE is a reset' "$resets"
wrong_program function.c 's/ && is_new_state;/ \&\& (is_new_state || true);/' 'each dropped event is a reset' "$resets
$two"
wrong_program bus.c 's/before == DFU_STATE_APP_DETACH ? now - bus->last_tick_ms : machine_due(&bus->machine)/now - bus->last_tick_ms/' \
    'it lets the time pass before it writes' "$first
$early" "$timed"
wrong_program machine.c 's/if (note(machine, dfu_device_would_stall.*/if (true)/; s/if (length > machine->config.tra.*/if (false) {/' \
    'each data stage is taken' "$first
$stalled"
