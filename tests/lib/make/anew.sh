# What make builds anew, and that builds side by side do no harm; tests/build/make reads this file.
# shellcheck shell=sh disable=SC2154
objects=$(($(find apps -name '*.c' ! -path '*/unix/*' ! -path '*/windows/*' | wc -l) + 5))

says 0 -j4
unsaid 'warning'
says 0
compiled 'nothing has changed' 0
for program in dfu dfu-flash dfu-gadget; do
    [ -x "build/$program" ] || continue
    is "$program runs" sh -c "./build/$program --version > /dev/null"
done
touch include/dfu_device.h
says 0
is 'a header that changed' [ "$(grep -c -e ' -c -o ' "$work/said")" -ge 2 ]
reading=$(grep -l '#include <dfu_device' apps/flash/*.c | wc -l)
is 'what reads another one stays' [ "$(grep -c -e ' -c -o .*/objects/flash/' "$work/said")" -eq "$reading" ]
touch dist/os.c
says 0
compiled 'os.c changed' 1
touch dist/*/dfu.s
says 0
compiled 'the assembly changed' 1
echo 'int main(void) { return 77; }' > apps/flash/unwanted.c
says 2
rm apps/flash/unwanted.c
says 0
says 0 CFLAGS=-g
if [ -x build/dfu-flash ] && [ -x build/dfu-gadget ]; then compiled 'other flags' "$objects"; fi
says 0 check CFLAGS=-O0 MAKEFLAGS=n
compiled 'make check takes what is there' 0
says 0

# One folder, two builds at once.
rm -rf build
make -j2 > "$work/first" 2>&1 &
first=$!
make -j2 > "$work/second" 2>&1 || :
is 'the other build' wait "$first"
unsaid 'Error'
says 0
compiled 'both are done' 0
is 'the program' sh -c './build/dfu --version > /dev/null'
equal 'nothing is left beside' '' "$(find build -name '*.[0-9]*')"

# Folders.
says 2 BUILD='a b'
said "no blank in its path: 'a b'"
says 2 BUILD=
says 0 BUILD="$work/elsewhere" libraries
is 'another folder' test -f "$work/elsewhere/libdfu_host.a"
mkdir "$work/mine"
echo mine > "$work/mine/dfu"
says 0 clean BUILD="$work/mine"
is 'make clean takes away what make built alone' grep -q mine "$work/mine/dfu"
says 0 clean BUILD=.
is 'make clean in the sources' test -f apps/flash/words.c
echo mine > build/mine
says 0 clean
equal 'make clean' mine "$(ls build)"
rm -r build
says 0
says 0 clean
is 'make clean, all' test ! -e build
says 2 CC=no-such-compiler
said 'no-such-compiler'
equal 'nothing is built then' '' "$(find . -path './build/*' -name '*dfu*')"
