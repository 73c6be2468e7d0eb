# Rows of tests/apps/flash: the step behind an image that the memory map doesn't have room for. next.sh reads it.
# shellcheck shell=sh disable=SC2154
memory='use the image for this memory, or another address or setting; see --list'
has='and the board has 08000000 to 08003fff'
row 1 - 'OutsideTheMap: ' USB_DEVICE=dfuse --address 0x08003fff new
next "the image would take 08003fff to 08004018, $has: $memory"
row 1 - 'OutsideTheMap: ' USB_DEVICE=dfuse --address 0x08003fff --length 2 --upload never
next "it was to read 08003fff to 08004000, $has: $memory"
row 1 - 'OutsideTheMap: ' USB_DEVICE=dfuse --address 0x07000000 new
next "the image would take 07000000 to 07000019, $has: $memory"
gaps='@F/0x08000000/2*1Kg,2*1Kg/0x08002000/1*1Kg'
row 1 - 'OutsideTheMap: ' "USB_DEVICE=dfuse USB_MAPS=$gaps USB_PAGES=$gaps" --address 0x20000000 new
next "the image would take 20000000 to 20000019, and the board has 08000000 to 08000fff, 08002000 to 080023ff: $memory"
gaps=@F$(for number in 1 2 3 4 5 6; do printf '/0x0%s000000/1*1Kg' "$number"; done)
row 1 - 'OutsideTheMap: ' "USB_DEVICE=dfuse USB_MAPS=$gaps USB_PAGES=$gaps" --address 0x20000000 new
says ', 05000000 to 050003ff ..: use the image for this memory'
