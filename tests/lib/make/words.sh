# The words of make: each folder's name and what a stranger types builds what it means, or says what to type; the lines that make prints;
# and ./test without a kit. tests/build/make reads this file.
# shellcheck shell=sh disable=SC2154

# ends STATUS WORD..: make with these words, in few lines, ends with this status; what it printed is in `said`.
ends() {
    wanted=$1 code=0
    shift
    make -j4 "$@" > "$work/said" 2>&1 || code=$?
    if [ "$code" -eq "$wanted" ]; then right; else
        wrong "make $*: wanted $wanted, found $code"
        tail -n 5 "$work/said"
    fi
}
last() {
    equal "the last line of make $1" "$2" "$(tail -n 1 "$work/said")"
}
rm -rf build
ends 0
parts=$(cd build && for it in dfu dfu-flash dfu-gadget; do [ ! -x "$it" ] || echo "$it"; done | sed '2,$s/^/, /' | tr -d '\n')
[ -z "$parts" ] || parts="$parts and "
next=
[ ! -x build/dfu ] || next='; next: make check'
[ ! -x build/dfu-flash ] || next='; next: build/dfu-flash --list, or make check'
last '' "built ${parts}3 libraries in build/$next"
said '^  CC dist/dfu_host.o$'
said '^  AR build/libdfu_host.a$'
equal 'each line is short' '' "$(sed '$d' "$work/said" | grep -v -e '^  [CLA][CDR] [a-z/_.-]*$' -e ' is left out: ' | head -n 2)"
ends 0
last '' "build/ is up to date: ${parts}3 libraries$next"
equal 'nothing to do takes one line' 1 "$(grep -c -v ' is left out: ' "$work/said")"
for word in all build; do
    ends 0 "$word"
    last "$word" "build/ is up to date: ${parts}3 libraries$next"
done
ends 0 -s
equal 'make -s' '' "$(grep -v ' is left out: ' "$work/said" || :)"
ends 0 BUILD=other -n
said 'next: other/dfu-flash --list, or make check BUILD=other'
ends 0 BUILD=other V=1 CFLAGS=-O0 libraries
said '^gcc .* -c -o other/objects/dist/dfu_host.o'
unsaid '^  CC'
ends 0 BUILD=other V=0 CFLAGS=-Wpadded libraries
said '^  CC dist/dfu_host.o$'
said 'warning: .*-Wpadded'
unsaid '^gcc'
ends 0 BUILD=other -s CFLAGS=-O0 libraries
equal 'make -s, of something' '' "$(cat "$work/said")"
ends 2 BUILD=other "CFLAGS=-Wpadded -Werror -DA='b c'" libraries
said "^gcc .* -Wpadded -Werror -DA='b c' .* -c -o other/objects/dist/dfu_[a-z]*.o"
rm -r other

# Words for a part.
for word in lib libs library libraries; do
    ends 0 "$word"
    last "$word" 'build/ has 3 libraries'
done
# programs: those that are in build/.
programs() {
    (cd build && for it in dfu dfu-flash dfu-gadget; do [ ! -x "$it" ] || echo "$it"; done)
}
there=$(programs)
for word in dfu dfu-flash dfu-gadget flash gadget; do
    case $word in dfu*) name=$word ;; *) name=dfu-$word ;; esac
    rm -f build/dfu build/dfu-*
    if echo "$there" | grep -qx "$name"; then
        ends 0 "$word"
        last "$word" "build/ has $name"
        equal "make $word builds that alone" "$name" "$(programs)"
    else
        ends 2 "$word"
        said "^make: $name is left out: "
    fi
done
ends 2 flash PKG_CONFIG=false CPPFLAGS='-nostdinc -isystem nowhere'
said '^make: dfu-flash is left out: gcc finds no libusb-1.0'
for word in web page; do
    ends 0 "$word" BUILD=build/part
    is "make $word" test -f build/part/page/index.html
    rm -rf build/part
done
for word in check test tests; do
    ends 0 "$word" -n
    said 'tests/run check$'
done

# make compare runs two programs beside each other, and stops where one of them is missing.
ends 0 compare -n
said 'tests/lib/interop/compare$'
code=0
DFU_UTIL=no-such-program BUILD="$build" "$top/tests/lib/interop/compare" > "$work/said" 2>&1 || code=$?
equal 'make compare without dfu-util' \
    "1 make compare needs no-such-program, which isn't there (Debian: apt install dfu-util)" "$code $(cat "$work/said")"

# Words for what make doesn't build: each names what to type.
refused() {
    ends 2 "$1"
    said "^make: .*$2"
    unsaid 'Nothing to be done'
}
refused crates './test, with a Rattle kit'
refused dist 'dist/generate, with a Rattle kit: see dist/README.md'
refused apps 'make dfu-flash'
refused debian 'dpkg-buildpackage -b -us -uc'
refused docs 'docs/README.md'
refused doc 'docs/README.md'
refused examples 'build/dfu run examples/lost-answer.script'
refused include 'include/README.md'
refused share 'make install'
ends 2 dist -n
for folder in "$top"/*/; do
    folder=$(basename "$folder")
    case $folder in build* | LICENSES) continue ;; esac
    make -n "$folder" > "$work/said" 2>&1 || :
    unsaid 'Nothing to be done'
done
ends 0 help
for word in check libraries install page clean; do said "^  make $word"; done
unsaid '^#'

# ./test, without the kit that crates/KIT names.
# stops WANTED PATH: it prints that, and stops within a second.
stops() {
    code=0 began=$(date +%s%N)
    PATH=$2 "$top/test" > "$work/said" 2>&1 < /dev/null || code=$?
    equal './test: its status' 1 "$code"
    is './test stops at once' [ $((($(date +%s%N) - began) / 1000000)) -lt 1000 ]
    equal './test: what it says' "$1
0 passed, 1 failed" "$(cat "$work/said")"
}
without=$(echo "$PATH" | tr : '\n' | while read -r folder; do [ -x "$folder/rt" ] || printf '%s:' "$folder"; done)
# shellcheck disable=SC2016
stops 'this needs a Rattle kit (rt on PATH), see CONTRIBUTING.md; `make check` needs none' "${without%:}"
mkdir "$work/kit"
printf '#!/bin/sh\necho rattle-kit-0 logic 0000000000000000\n' > "$work/kit/rt"
chmod +x "$work/kit/rt"
stops "the kit is 'rattle-kit-0 logic 0000000000000000', and crates/KIT says $(cat "$top/crates/KIT"): see CONTRIBUTING.md; \`make check\` needs no kit" \
    "$work/kit:${without%:}"
