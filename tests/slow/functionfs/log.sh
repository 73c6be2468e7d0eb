# What runs in the machine: four downloads onto a medium whose writes the kernel's device mapper notes on the second disk, in the order
# in which they came to the first. The computer outside then looks what a loss of power at each of them leaves (cuts.c).
# shellcheck shell=sh disable=SC2154
# shellcheck source=tests/slow/functionfs/common.sh
. ./common.sh
export DM_DISABLE_UDEV=1 # no rule of udev answers dmsetup here
echo "0 $(blockdev --getsz /dev/vda) log-writes /dev/vda /dev/vdb" | dmsetup create medium
medium=/dev/dm-0
./set-up 0x1209 0x0001 0x0100 F1
suffixed one two three four
start '--dfu-mode --transfer-size 1024'
for name in one two three four; do
    is_back
    dmsetup message medium 0 mark $name
    ./dfu-flash $name.dfu > out 2> err
    expect "noted: $name: $(tail -n 1 out)" test $? -eq 0
done
stop
expect 'it ended' test "$ended" -eq 0
expect 'the image' cmp saved four
dmsetup message medium 0 mark end
sync
dmsetup remove medium
finish
