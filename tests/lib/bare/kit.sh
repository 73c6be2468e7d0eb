# What the parts of tests/c/processors and slow/microcontrollers share: they count checks, and build programs without a C library and
# run them in QEMU without an OS. `top` is the folder of the repository.
# shellcheck shell=sh disable=SC2034,SC2154
# shellcheck source=tests/lib/support/counting.sh
. "$top/tests/lib/support/counting.sh"
# shellcheck source=tests/lib/support/archives.sh
. "$top/tests/lib/support/archives.sh"
bare=$top/tests/lib/bare

# target NAME: what builds for it, and the machine of QEMU that runs it; `device` and `host` are its archives, which make builds if it has
# not yet. What each program has is compiled into a folder of its own, `here`.
target() {
    target=$1
    compiler=arm-none-eabi-gcc
    start=cortex_m.c
    script=cortex_m.ld
    flags="-mthumb -mcpu=${1%-hard}"
    links='-Wl,--no-warn-execstack'
    case $1 in cortex-m33) places='code=0x10000000 memory=0x38000000' ;; *) places='code=0 memory=0x20000000' ;; esac
    places="$places memory_size=0x400000 stack_size=0x4000"
    case $1 in
    cortex-m0plus | cortex-m3) emulator='qemu-system-arm -M mps2-an385' ;;
    cortex-m4) emulator='qemu-system-arm -M mps2-an386' ;;
    cortex-m4-hard) emulator='qemu-system-arm -M mps2-an386' flags="$flags -mfloat-abi=hard -mfpu=fpv4-sp-d16" ;;
    cortex-m7) emulator='qemu-system-arm -M mps2-an500' ;;
    cortex-m7-hard) emulator='qemu-system-arm -M mps2-an500' flags="$flags -mfloat-abi=hard -mfpu=fpv5-sp-d16" ;;
    cortex-m33) emulator='qemu-system-arm -M mps2-an505' ;;
    aarch64-none)
        compiler=aarch64-linux-gnu-gcc
        start=aarch64.S
        script=virt.ld
        flags='-mgeneral-regs-only -mstrict-align -fno-pic'
        links='-no-pie -Wl,--no-warn-rwx-segments'
        places='memory=0x40080000'
        emulator='qemu-system-aarch64 -M virt -cpu cortex-a53 -nic none'
        ;;
    rv32imc)
        compiler=riscv64-unknown-elf-gcc
        start=rv32.S
        script=virt.ld
        # (the start reads a trap's cause, and libgcc is that of rv32imc)
        flags='-march=rv32imc_zicsr -mabi=ilp32'
        links='-march=rv32imc -Wl,--no-warn-rwx-segments'
        places='memory=0x80000000'
        emulator='qemu-system-riscv32 -M virt -bios none'
        ;;
    esac
    device=$work/$1/libraries/libdfu_device.a
    host=$work/$1/libraries/libdfu_host.a
    [ -e "$device" ] || libraries "$1/libraries" "-Os -ffreestanding $flags"
    prepare "$1"
}
prepare() {
    here=$work/$1
    mkdir -p "$here"
    for source in "$start" machine.c memory.c print.c thread.c; do
        compile "$bare/$source" "$here/${source%.*}.o"
    done
    for place in $places; do
        links="$links -Wl,--defsym=$place"
    done
}
# compile SOURCE OBJECT
compile() {
    # shellcheck disable=SC2086
    "$compiler" $flags -O2 -std=c11 -Wall -Wextra -Werror -ffreestanding -fno-tree-loop-distribute-patterns -ffunction-sections -nostdinc \
        -isystem "$bare/include" -isystem "$("$compiler" -print-file-name=include)" -I "$bare" -I "$top/include" -c "$1" -o "$2"
}
# program NAME SOURCE LIBRARY..
program() {
    name=$1
    compile "$2" "$here/$name.main"
    shift 2
    # shellcheck disable=SC2086
    "$compiler" $flags $links -nostdlib -static -Wl,--gc-sections -T "$bare/$script" "$here"/*.o "$here/$name.main" "$@" \
        -lgcc -o "$here/$name"
}

# run NAME WORD..: runs one with these words. What it prints stands in $work/printed; the status is the program's, and 3 after a fault.
run() {
    name=$1
    shift
    words=$name
    for word in "$@"; do
        words="$words,arg=$word"
    done
    # shellcheck disable=SC2086
    timeout 900 $emulator -display none -monitor none -serial none -semihosting-config "enable=on,target=native,arg=$words" \
        -kernel "$here/$name" > "$work/printed" 2>&1
}
# prints FILE NAME WORD..: it prints what the file has.
prints() {
    wanted=$1
    shift
    run "$@" && cmp "$work/printed" "$wanted"
}
# deepest NAME MOST: it goes no deeper than so many bytes; the deepest is told.
deepest() {
    run "$1" "$2" &&
        awk '/bytes of stack$/ && $(NF - 3) > most { most = $(NF - 3) } END { print "  at most " most " bytes of stack" }' "$work/printed"
}
# faults NAME WORD..: it ends in on_fault.
faults() {
    status=0
    run "$@" || status=$?
    [ "$status" -eq 3 ] && grep -qx fault "$work/printed"
}

# The file that the example of a flasher installs.
ones() {
    printf '\377\377\377\377\377\377\377\377\377\377\000\001UFD\020\161\310\121\014' > "$work/ones.dfu"
    echo "$work/ones.dfu"
}
# digest_here: the digest programs for x86-64, in $work/here.
digest_here() {
    mkdir -p "$work/here"
    gcc -O2 -std=c11 -Wall -Wextra -Werror -I "$top/include" "$bare/digest.c" "$build/libdfu_device.a" -o "$work/here/digest"
    gcc -O2 -std=c11 -Wall -Wextra -Werror -I "$top/include" "$bare/digest_host.c" "$build/libdfu_host.a" -o "$work/here/digest_host"
}
# as_here NAME WORD..: it prints what the same program prints on x86-64.
as_here() {
    mine=$1
    shift
    ("$work/here/$mine" "$@") > "$work/here/printed"
    prints "$work/here/printed" "$mine" "$@"
}

# What each target runs in a minute: rows, losses of power between calls, sessions, garbled calls, the examples; and its sizes.
run_short() {
    for name in rows operations time power; do
        program "$name" "$top/tests/lib/c/$name.c" "$device"
        is "$target: $name" run "$name"
    done
    program runtime "$top/tests/lib/c/runtime.c" "$device"
    is "$target: runtime" run runtime 5000
    program sessions "$top/tests/lib/c/sessions.c" "$host" "$device"
    is "$target: sessions" run sessions
    program garbled "$top/tests/lib/c/garbled.c" "$device"
    program garbled_sessions "$top/tests/lib/c/garbled_sessions.c" "$host"
    program dfuse "$top/tests/lib/c/dfuse.c" "$host"
    for name in garbled garbled_sessions dfuse; do
        is "$target: $name" run "$name" 5000
    done
    for name in bootloader nor_bootloader early_stack application; do
        program "$name" "$top/examples/c/$name.c" "$device"
        is "$target: $name" prints "$top/examples/c/$name.out" "$name"
    done
    program flasher "$top/examples/c/flasher.c" "$host" "$device"
    is "$target: flasher" prints "$top/examples/c/flasher.out" flasher "$(ones)"
    for name in twins garbled_flash; do
        program "$name" "$top/tests/lib/c/$name.c" "$device"
        is "$target: $name" run "$name" 5000
    done
    digests 5000 10000 1
}
# digests CALLS HOST_CALLS SEED..: digests are those of x86-64, over aligned and unaligned memory: of CALLS calls of the device for each
# seed, and of HOST_CALLS calls of the host.
digests() {
    program digest "$bare/digest.c" "$device"
    program digest_host "$bare/digest_host.c" "$host"
    calls=$1
    of_host=$2
    shift 2
    for odd in 0 1; do
        for seed in "$@"; do
            is "$target: as on x86-64 from seed $seed, $odd bytes off" as_here digest "$calls" "$seed" "$odd"
        done
        is "$target: the host as on x86-64, $odd bytes off" as_here digest_host "$of_host" "$odd"
    done
}
# sizes DEVICE HOST BOOT NEEDS: each library is smaller than its number of bytes and needs no name but NEEDS; the stack of calls is printed.
sizes() {
    echo "$target"
    boot=${device%/*}/libdfu_boot.a
    is "$target: size of ${device##*/}" is_small "$device" "$1"
    is "$target: size of ${host##*/}" is_small "$host" "$2"
    is "$target: size of ${boot##*/}" is_small "$boot" "$3"
    for library in "$device" "$host" "$boot"; do
        is "$target: what ${library##*/} needs" needs_only "$library" "$4"
    done
    program stack "$top/tests/lib/c/stack.c" "$device"
    is "$target: stack of the device" deepest stack 1500
    program host_stack "$top/tests/lib/c/host_stack.c" "$host"
    is "$target: stack of the host" deepest host_stack 900
    program trial_stack "$top/tests/lib/c/trial_stack.c" "$boot" "$device"
    is "$target: stack of trials" deepest trial_stack 1200
}
