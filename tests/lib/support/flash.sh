# Ends a script, with no failure, if make left dfu-flash out.
# shellcheck shell=sh disable=SC2154
if [ ! -x "$build/dfu-flash" ]; then
    echo "make left dfu-flash out, which needs libusb-1.0 with its headers: so does this script"
    echo "0 passed, 0 failed"
    exit
fi
