# What runs in the machine: one that was killed is started again, with the disk as it was left. It serves the image that stands there.
# shellcheck shell=sh disable=SC2154
# shellcheck source=tests/slow/functionfs/common.sh
. ./common.sh
./set-up 0x1209 0x0001 0x0100 F1
suffixed one
./dfu-gadget image $medium > before
expect 'one of the two images' test -n "$(cmp before one > said && echo one; cmp before two > said && echo two)"
start --dfu-mode
./dfu-flash --upload up > out 2> err
expect "started again: $(tail -n 1 out)" cmp up before
is_back
./dfu-flash one.dfu > out 2> err
expect "a download: $(tail -n 1 out)" test $? -eq 0
stop
expect 'the image' cmp saved one
finish
