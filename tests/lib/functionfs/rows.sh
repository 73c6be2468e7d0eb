# The folder that stands for Linux, and how a host's script is played over it.
# shellcheck shell=sh disable=SC2034,SC2154
udc=dummy_udc.0
# folder NAME: configfs with both gadgets, their FunctionFS, and the controller.
folder() {
    rm -rf "$1"
    for mode in application upgrade; do
        mkdir -p "$1/sys/kernel/config/usb_gadget/$mode" "$1/dev/usb-ffs/$mode"
        : > "$1/dev/usb-ffs/$mode/ep0"
        : > "$1/sys/kernel/config/usb_gadget/$mode/UDC"
        echo 0x1209 > "$1/sys/kernel/config/usb_gadget/$mode/idVendor"
        echo 0x0001 > "$1/sys/kernel/config/usb_gadget/$mode/idProduct"
        echo 0x0100 > "$1/sys/kernel/config/usb_gadget/$mode/bcdDevice"
    done
    mkdir -p "$1/sys/class/udc/$udc" "$1/proc/sys/kernel"
    echo configured > "$1/sys/class/udc/$udc/state"
    echo 6.12.95 > "$1/proc/sys/kernel/osrelease"
    printf 'nodev\tsysfs\nnodev\tfunctionfs\n' > "$1/proc/filesystems"
}
folder root
printf 'the old image' > old
printf 'a new image of 26 bytes ..' > new
program=./gadget
log=

# fresh: the medium has the old image.
fresh() {
    rm -f medium
    ./gadget format medium --most 5000 old
}
# hex FILE: its bytes.
hex() {
    od -An -v -tx1 "$1" | tr -d ' \n'
}
# play SETTINGS: runs the script that stands on standard input, from what stands on the medium, with a log where `log` is =FILE. A line has
# a step, and behind => what has to come of it, with ` / ` between. `wrong` notes are made by row; play alone sets `outcome`.
play() {
    sed 's/ *=>.*//' > host
    rm -f said
    code=0
    # shellcheck disable=SC2086
    env GADGET_HOST=host GADGET_SAID=said timeout 60 $program run medium --controller $udc --root root --verbose$log $1 > out 2> err ||
        code=$?
    touch said
}
# row WHAT SETTINGS: plays it, and compares all that came of it. In the end the device leaves the bus, and the status is 0.
row() {
    cat > wanted_rows
    play "$2" < wanted_rows
    sed -n 's/.*=> *//p' wanted_rows | sed 's, / ,\n,g' | sed '/^$/d' > wanted
    sed '/^write \|protocol/d' said | sed '$d' > found
    if [ "$code" -eq 0 ] && cmp -s wanted found && tail -n 1 said | grep -q ' leaves$'; then right; else
        wrong "$1: status $code"
        diff wanted found | head -n 20
        tail -n 20 err
    fi
}
# holds WHAT FILE: the image that stands on the medium.
holds() {
    ./gadget image medium > saved || :
    is "$1" cmp -s saved "$2"
}
