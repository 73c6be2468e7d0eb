# Descriptors, and single requests at the corners.
# shellcheck shell=sh
# shellcheck source=tests/slow/tinyusb/board.sh
. ./board.sh
status=a103000000000600 state=a105000000000100

# shown WHAT: lsusb says so.
shown() {
    row "lsusb: $1" 1 "$(tr -s ' ' < shown | grep -c -- "$1 *\$")"
}
format two
start 'ATTRIBUTES=0f TRANSFER=1000'
lsusb -v -d 1209:0001 > shown 2> errors
for text in 'bcdUSB 2.10' 'bInterfaceProtocol 1' 'iInterface 4 Firmware' 'bcdDFUVersion 1.10' 'wTransferSize 1000 bytes' \
    'wDetachTimeout 1000 milliseconds' 'Will Detach' 'Upload Supported' 'iLandingPage 1 https://example.org/dfu/flash' \
    'PlatformCapabilityUUID {3408b638-09a9-47a0-8bfd-a0768815b665}' 'PlatformCapabilityUUID {d8dd60df-4589-4cc7-9cd2-659d9e648a9f}'; do
    shown "$text"
done
end

start 'ATTRIBUTES=0f DFU_MODE=1 TRANSFER=64'
# The vendor's requests: the set of Microsoft's descriptors and the landing page; short, none, and another one.
row 'the set of Microsoft' 324 "$(./transfer 1-1 c0d100000700ff00 | tr -d '\n' | wc -c)"
asked 0a00 c0d1000007000200
asked '' c0d1000007000000
asked 1803 c0d2010002000200
asked stall c0d2020002000200
asked stall c0d3000000000200
# wLength 0 with bit 7: an answer of no bytes; the next request is answered too.
asked 02 $state
asked '' a103000000000000
asked 02 $state
asked stall a102000000000000
asked 0f0000000a00 $status
asked ok 2104000000000000
# UPLOAD above the transfer size, of block 1 first, and of more than there is in the last one.
asked stall a102000000004100
asked 0f0000000a00 $status
asked ok 2104000000000000
# DNLOAD: above the transfer size and above the buffer, in dfuIDLE without bytes, and its block numbers.
asked stall 2101000000004100 x65
asked 0f0000000a00 $status
asked stall 2101000000004000 x64
asked ok 2104000000000000
asked stall 2101000000000010 x4096
asked ok 2104000000000000
asked stall 2101000000000000
asked ok 2104000000000000
# Requests that DFU has not, of another interface, and with bytes that nobody wants.
asked stall 2107000000000000
asked 0a $state
asked ok 2104000000000000
asked stall a107000000000400
asked ok 2104000000000000
asked stall 2104000000000500 x5
asked ok 2104000000000000
asked 02 $state
# A block, and what is no bus reset: SET_INTERFACE, SET_CONFIGURATION of 0 and of 1.
asked ok 2101000000004000 x64
asked 03 $state
asked ok alt 0
asked 03 $state
asked ok 0009000000000000
asked ok 0009010000000000
asked 03 $state
row 'resets that the device was told of' 0 "$(told TOLD)"
# A bus reset is one: the first of those of an enumeration.
./transfer 1-1 reset > out
is_back
asked 00 $state
row 'resets that the device was told of' 1 "$(told TOLD)"
row 'stages that never come' 0 "$(told NEVER)"
row 'late stalls' 0 "$(told 'TOO LATE')"
end
finish
