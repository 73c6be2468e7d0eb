# Sessions of dfu-flash and dfu-util.
# shellcheck shell=sh disable=SC2154
# shellcheck source=tests/slow/tinyusb/board.sh
. ./board.sh

# session STATUS IMAGE SETTINGS COMMAND..: the image `one` stands, the command is to end so, and that image to stand then.
session() {
    status=$1 wanted=$2 settings=$3 code=0
    shift 3
    format one
    start "$settings"
    "$@" > out 2> errors || code=$?
    is_back
    stop
    row "$settings: $*" "$status $wanted" "$code $image"
    last=$(tail -n 1 out | tr '\r' '\n' | tail -n 1)
    echo "    ${last:-$(tail -n 1 errors)}; $(told ' reset') resets, $(told TOLD) told;" \
        "late stalls $(told 'TOO LATE'), never $(told NEVER), refused $(told REFUSED)"
}

# dfu-flash cannot confirm a download of 01; dfu-util ends with 74 if the device is not tolerant.
for transfer in 64 1000 4096; do
    file=two
    [ "$transfer" != 64 ] || file=three
    for attributes in 0f 07 03 0b 05 01; do
        case $attributes in 01) flash=8 ;; *) flash=0 ;; esac
        case $attributes in 0f | 07 | 05) util=0 ;; *) util=74 ;; esac
        for mode in '' ' DFU_MODE=1'; do
            session $flash $file "ATTRIBUTES=$attributes TRANSFER=$transfer$mode" ./dfu-flash --quiet $file.dfu
            session $util $file "ATTRIBUTES=$attributes TRANSFER=$transfer$mode" dfu-util -D $file.dfu
        done
    done
done
session 251 two 'ATTRIBUTES=0f' dfu-util -R -D two.dfu
session 0 two 'FULL=1' ./dfu-flash --quiet two.dfu

# Times: before the answer, a poll time that is too short (the host gets NAK), erases of 400 ms, and of 6 s, which Linux gives up.
for program_of in './dfu-flash --quiet' 'dfu-util -D'; do
    # shellcheck disable=SC2086
    {
        session 0 two 'BUSY=0 MANIFEST=0' $program_of two.dfu
        session 0 two 'BUSY=1' $program_of two.dfu
        session 0 two 'BUSY=1 ERASE_MS=400' $program_of two.dfu
        session 0 two 'NO_ACK=1' $program_of two.dfu
    }
done
session 0 two 'ATTRIBUTES=03 MANIFEST=500' ./dfu-flash --quiet two.dfu
session 7 one 'BUSY=1 ERASE_MS=6000' ./dfu-flash --quiet three.dfu

# Sessions, judged.
for attributes in 0f 07 03 05 01; do
    format one
    start "ATTRIBUTES=$attributes"
    rm -f judged
    ./dfu-flash --quiet --verbose=judged two.dfu > out 2> errors
    is_back
    stop
    row "$attributes: dfu judge of a session" kept "$(./dfu judge judged | tail -n 1 | cut -d' ' -f1)"
done

# Uploads, in both modes.
for mode in '' DFU_MODE=1; do
    format two
    start "ATTRIBUTES=0f $mode"
    rm -f up
    ./dfu-flash --upload up > out 2> errors
    row "$mode dfu-flash --upload" '0 same' "$? $(cmp -s up two && echo same)"
    is_back
    end
    start "ATTRIBUTES=0f $mode"
    rm -f up
    dfu-util -U up > out 2> errors
    row "$mode dfu-util -U" '0 same' "$? $(cmp -s up two && echo same)"
    is_back
    end
done
finish
