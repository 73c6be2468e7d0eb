# How tests/slow/linux-gadget, linux-usb and tinyusb make a machine of QEMU, and run it; they read this file.
# shellcheck shell=sh disable=SC2154

# choose PROCESSOR: what it is called elsewhere, its packages in $packages, and the words of QEMU.
choose() {
    processor=$1
    case $processor in
    x86-64)
        packages=${LINUX-} debian=amd64 qemu='qemu-system-x86_64 -cpu max' console=ttyS0
        ;;
    aarch64)
        packages=${LINUX_AARCH64-} debian=arm64 qemu='qemu-system-aarch64 -M virt -cpu cortex-a53' console=ttyAMA0
        ;;
    esac
    kernel=$(find "$packages/boot" -name "vmlinuz-*-$debian" 2> /dev/null | sort -V | tail -n 1)
    drivers=$packages/lib/modules/${kernel##*/vmlinuz-}/kernel
    root=$work/$processor
}

# Whether the machine can be made. What is missing is said.
is_possible() {
    command -v "${qemu%% *}" > /dev/null || { echo "$processor: there is no ${qemu%% *}"; return 1; }
    [ -f "$kernel" ] && [ -d "$drivers" ] || { echo "$processor: there is no kernel of a package linux-image-*-$debian"; return 1; }
    [ "$processor" != aarch64 ] || command -v aarch64-linux-gnu-gcc > /dev/null || {
        echo 'aarch64: there is no aarch64-linux-gnu-gcc'
        return 1
    }
}

# module NAME: it, behind those that it depends on.
module() {
    [ ! -e "$root/modules/$1.ko" ] || return 0
    file=$(find "$drivers" -name "$1.ko*" -o -name "$(echo "$1" | tr _ -).ko*" | head -n 1)
    [ -n "$file" ] || return 0
    case $file in
    *.xz) xz -dc "$file" > "$root/modules/$1.ko" ;;
    *) cp "$file" "$root/modules/$1.ko" ;;
    esac
    for needed in $(tr '\000' '\n' < "$root/modules/$1.ko" | sed -n 's/^depends=//p' | tr , ' '); do
        module "$needed"
    done
    echo "$1" >> "$root/modules/list"
}

# put FILE PLACE: a program, and of this computer's the libraries that it is linked with. Those of the packages are there already.
put() {
    cp -L "$1" "$root$2"
    [ "$processor" = x86-64 ] || return 0
    { ldd "$1" 2> /dev/null || :; } | grep -o '/[^ ]*' | while read -r library; do
        mkdir -p "$root${library%/*}"
        cp -L "$library" "$root$library"
    done
}
put_libraries() {
    (cd "$packages" && find lib usr/lib -maxdepth 2 -path '*gnu/*.so*' ! -type d) | while read -r library; do
        mkdir -p "$root/${library%/*}"
        cp -L "$packages/$library" "$root/$library"
    done
    cp -L "$packages/lib/ld-linux-aarch64.so.1" "$root/lib/"
}
# found NAME: a program, of the packages or of this computer.
found() {
    if [ "$processor" = x86-64 ]; then
        command -v "$1"
    else
        find "$packages/bin" "$packages/sbin" "$packages/usr/bin" -name "$1" | head -n 1
    fi
}

# programs: dfu-gadget, dfu-flash and transfer, in $root/work, which is the machine's folder `guest`.
guest=work
programs() {
    if [ "$processor" = x86-64 ]; then
        compiler=gcc
        cp "$build/dfu-gadget" "$build/dfu-flash" "$root/work"
    else
        compiler=aarch64-linux-gnu-gcc
        libraries=$packages/usr/lib/aarch64-linux-gnu
        command make -s -C "$top" BUILD="$work/built" CC=$compiler PKG_CONFIG=false CPPFLAGS="-I$packages/usr/include/libusb-1.0" \
            LDFLAGS="-L$libraries -Wl,-rpath-link,$libraries" "$work/built/dfu-gadget" "$work/built/dfu-flash" > /dev/null
        cp "$work/built/dfu-gadget" "$work/built/dfu-flash" "$root/work"
    fi
    "$compiler" -std=gnu11 -O2 -Wall -Wextra -Werror -o "$root/work/transfer" "$here/transfer.c"
    for program in dfu-gadget dfu-flash transfer; do
        mv "$root/work/$program" "$work/moved"
        put "$work/moved" "/$guest/$program"
    done
}

# make: the first file system of the machine, $work/PROCESSOR.cpio.
make() {
    mkdir -p "$root/bin" "$root/dev" "$root/etc" "$root/lib" "$root/modules" "$root/proc" "$root/run" "$root/sys" "$root/tmp" \
        "$root/usr/bin" "$root/work"
    for name in virtio_pci virtio_blk dummy_hcd libcomposite usb_f_fs usb_f_acm dm_flakey dm_delay dm_log_writes; do
        module "$name"
    done
    [ "$processor" = x86-64 ] || put_libraries
    programs
    put "$(found udevadm)" /bin/udevadm
    ln -s udevadm "$root/bin/systemd-udevd"
    put "$(found dmsetup)" /bin/dmsetup
    put "$(found dfu-util)" /usr/bin/dfu-util
    put "$(found dfu-suffix)" /usr/bin/dfu-suffix
    put "$(found busybox)" /bin/busybox
    printf 'root:x:0:0::/:/bin/sh\nnobody:x:65534:65534::/:/bin/sh\n' > "$root/etc/passwd"
    cp "$here/init" "$root/init"
    cp "$here/"*.sh "$top/apps/gadget/set-up" "$top/apps/gadget/try" "$top/apps/gadget/on-start" "$root/work/"
    cp "$work/one" "$work/two" "$work/three" "$work/four" "$root/work/"
    chmod 755 "$root/init"
    (cd "$root" && find . | cpio -o -H newc 2> /dev/null | gzip -1 > "$root.cpio")
    rm -r "${root:?}"
}

# add_fwupd: $work/fwupd.cpio, which is that file system and one that the kernel unpacks over it, with fwupd's tool of this computer.
add_fwupd() (
    [ "$processor" = x86-64 ] && command -v fwupdtool > /dev/null || { echo "$processor: there is no fwupd: left out"; return 1; }
    first=$root.cpio root=$work/fwupd
    mkdir -p "$root/etc" "$root/$guest" "$root/root" "$root/var/cache/fwupd" "$root/var/lib/fwupd"
    dpkg -L fwupd | grep -E '^/usr/(bin/fwupdtool|lib|libexec|share/fwupd)|^/etc/fwupd' | while read -r file; do
        [ -f "$file" ] || continue
        mkdir -p "$root${file%/*}"
        put "$file" "$file"
    done
    gcc -std=gnu11 -O2 -Wall -Wextra -Werror -shared -fPIC -o "$root/$guest/no_discovery.so" "$here/no_discovery.c"
    cp /etc/os-release "$root/etc"
    echo 0123456789abcdef0123456789abcdef > "$root/etc/machine-id"
    (cd "$root" && find . | cpio -o -H newc 2> /dev/null | gzip -1 | cat "$first" -) > "$work/fwupd.cpio"
    rm -r "${root:?}"
)

# machine PART: it runs until it has done its part, with the disks $work/disk and $work/log; what it says goes to $work/said. The machine's
# time is that of its instructions, and skips what it sleeps: no other work of this computer makes it late.
machine() {
    # shellcheck disable=SC2086
    exec timeout -s KILL "${LINUX_SECONDS:-3600}" nice -n 5 $qemu -accel tcg -m "${memory:-384}" -icount shift=4,sleep=off \
        -rtc clock=vm -nographic -no-reboot -kernel "$kernel" -initrd "${initrd:-$root.cpio}" -net none \
        -drive "file=$work/disk,format=raw,if=virtio,cache=writethrough" \
        -drive "file=$work/log,format=raw,if=virtio,cache=unsafe" \
        -append "console=$console quiet panic=-1 part=$1" < /dev/null > "$work/said" 2>&1
}

# used: the processor's time that the machine $emulator has had, in hundredths of a second.
used() {
    sed 's/.*) //' "/proc/$emulator/stat" 2> /dev/null | awk '{ used = $12 + $13 } END { print used + 0 }'
}
# run_on: it runs for a while of chance, up to 0.65 s of a processor's time, in a minute at most: other work of this computer makes the
# while longer, and the machine does as much in it.
run_on() {
    ends=$(($(used) + $(od -An -N2 -tu2 /dev/urandom | tr -d ' ') / 1000)) waits=0
    while [ "$(used)" -lt "$ends" ] && [ "$waits" -lt 3000 ]; do
        sleep 0.02
        waits=$((waits + 1))
    done
}
