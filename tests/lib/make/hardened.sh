# How the programs are hardened, and that flags of others win; tests/build/make reads this file.
# shellcheck shell=sh disable=SC2154

# has PROGRAM WHAT: it is in the program.
has() {
    case $2 in
    relro) readelf -lW "$1" | grep -q GNU_RELRO ;;
    now) readelf -dW "$1" | grep -q 'FLAGS.*NOW' ;;
    pie) readelf -hW "$1" | grep -q 'Type: *DYN' ;;
    guards) readelf -W --dyn-syms "$1" | grep -q ' __stack_chk_fail' ;;
    sizes) readelf -W --dyn-syms "$1" | grep -q ' __[a-z]*_chk@' ;;
    symbols) readelf -SW "$1" | grep -q debug_info ;;
    runpath) readelf -dW "$1" | grep -q 'RUNPATH.*/of-the-packager' ;;
    esac
}
hasnt() {
    ! has "$@"
}
is_hard() {
    for part in relro now pie guards sizes; do
        is "$1: $part" has "$program" "$part"
    done
}
# once WORD: it stands once in each line that compiles.
once() {
    equal "$1 stands once" 0 "$(grep -e ' -c -o .*/gadget/' "$work/said" | grep -c -e "$1 .*$1 " || :)"
}
program=build/dfu-flash
says 0
if [ -x "$program" ]; then
    is_hard 'a plain dfu-flash'
    is 'a plain dfu-flash: symbols' hasnt "$program" symbols
fi
program=build/dfu-gadget
if [ -x "$program" ]; then
    is_hard 'a plain dfu-gadget'
    says 0 'CFLAGS=-O0 -g -Werror' "$program"
    is '-g: symbols' has "$program" symbols
    is '-O0: sizes' hasnt "$program" sizes
    is '-O0: guards' has "$program" guards
    unsaid '_FORTIFY_SOURCE'
    # What distributions set beside that.
    says 0 'CPPFLAGS=-Wdate-time -D_FORTIFY_SOURCE=3' 'CFLAGS=-g -O2 -fstack-protector-strong -Werror' \
        'LDFLAGS=-Wl,-z,relro -Wl,-rpath,/of-the-packager' "$program"
    is_hard 'flags of Debian'
    is 'LDFLAGS' has "$program" runpath
    unsaid '_FORTIFY_SOURCE=2'
    once -fstack-protector-strong
    says 0 'CFLAGS=-O2 -Werror -Wp,-U_FORTIFY_SOURCE,-D_FORTIFY_SOURCE=3' "$program"
    is_hard 'flags of Fedora'
    says 0 'CFLAGS=-fno-stack-protector -fno-pie -U_FORTIFY_SOURCE' 'LDFLAGS=-no-pie -Wl,-z,lazy' "$program"
    for part in now pie guards; do
        is "flags that win: $part" hasnt "$program" "$part"
    done
    # A warning stops who asked for that, and nobody else.
    says 0 CFLAGS=-Wpadded build/objects/gadget/bus.o
    said 'Wpadded'
    says 2 'CFLAGS=-Wpadded -Werror' build/objects/gadget/bus.o
    says 2 'CPPFLAGS=-include nowhere.h' build/objects/gadget/bus.o
    if command -v clang > /dev/null; then
        says 0 CC=clang CFLAGS=-Werror "$program"
        is_hard clang
    fi
    says 0 LDFLAGS=-static CFLAGS=-O0 "$program"
    is 'a static one' sh -c './build/dfu-gadget --version > /dev/null'
    says 2 LDFLAGS=-lnothing-of-the-kind CFLAGS=-O0 "$program"
fi
says 0 'CC=gcc -m64' 'CFLAGS=-DTEXT="a b" -O0'
