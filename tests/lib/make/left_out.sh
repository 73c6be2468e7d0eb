# What make leaves out, and other processors; tests/build/make reads this file.
# shellcheck shell=sh disable=SC2154
says 0
of_flash=$(ls build)
says 0 PKG_CONFIG=false CPPFLAGS='-nostdinc -isystem nowhere' -n
said 'dfu-flash is left out: gcc finds no libusb-1.0 with its headers (Debian: libusb-1.0-0-dev)'
said 'dfu-gadget is left out: gcc finds no linux/usb/functionfs.h (Debian: linux-libc-dev)'
says 0 CPPFLAGS=-U__x86_64__ -n
[ "$(uname -m)" != x86_64 ] || said 'dfu is left out: there is code of it for Linux on x86-64 and AArch64 alone'
equal 'what is built' "$of_flash" "$(ls build)"

if command -v arm-none-eabi-gcc > /dev/null; then
    says 0 libraries CC=arm-none-eabi-gcc CFLAGS='-mcpu=cortex-m4 -mthumb' BUILD=build-m4
    unsaid 'warning'
    is 'an archive of Cortex-M' sh -c 'arm-none-eabi-nm build-m4/libdfu_device.a | grep -q " T dfu_core_handle$"'
    is 'it has the processor' sh -c 'arm-none-eabi-readelf -A build-m4/libdfu_device.a | grep -q "Tag_CPU_arch: v7E-M"'
    says 0 CC=arm-none-eabi-gcc CFLAGS='-mcpu=cortex-m4 -mthumb' BUILD=build-m4
    said 'dfu is left out'
    said 'dfu-gadget is left out'
    equal 'there is no program' 'libdfu_boot.a libdfu_device.a libdfu_host.a objects' "$(cd build-m4 && echo *)"
fi
if command -v aarch64-linux-gnu-gcc > /dev/null; then
    says 0 CC=aarch64-linux-gnu-gcc BUILD=build-aarch64
    unsaid 'warning'
    for program in dfu dfu-gadget; do
        is "AArch64: $program" sh -c "readelf -h build-aarch64/$program | grep -q 'Machine: *AArch64'"
        if command -v qemu-aarch64-static > /dev/null; then
            is "AArch64: $program runs" sh -c "qemu-aarch64-static -L /usr/aarch64-linux-gnu build-aarch64/$program --version > /dev/null"
        fi
    done
fi
