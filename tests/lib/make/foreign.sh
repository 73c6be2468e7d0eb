# What is in a place already: it stays if it is none of these files, and then nothing else is made; tests/build/install reads this file.
# shellcheck shell=sh disable=SC2086,SC2154

mkdir -p full/bin/dfu
run 1 'a folder' install PREFIX="$work/full"
is 'it says which' grep -q "full/bin/dfu is there and is none of these files" said
holds full
run 1 'a folder, away' uninstall PREFIX="$work/full"
mkdir -p other/bin
echo 'another program' > other/bin/dfu
run 1 'another program' install PREFIX="$work/other"
holds other bin/dfu
run 1 'another program, away' uninstall PREFIX="$work/other"
is 'another program stays' grep -q another other/bin/dfu
mkdir -p taken/lib
echo 'another library' > taken/lib/libdfu_host.a
run 1 'another library' install PREFIX="$work/taken"
holds taken lib/libdfu_host.a
mkdir -p link/bin
cp "$build/dfu" aim
ln -s "$work/aim" link/bin/dfu
before=$(cksum < aim)
run 1 'a link' install PREFIX="$work/link"
run 1 'a link, away' uninstall PREFIX="$work/link"
holds link bin/dfu
equal 'what it leads to' "$before" "$(cksum < aim)"
mkdir -p dangling/bin
ln -s nowhere dangling/bin/dfu
run 1 'a link to nowhere' install PREFIX="$work/dangling"
is 'nothing is made behind it' test ! -e dangling/bin/nowhere
mkdir -p pipe/share/man/man1
mkfifo pipe/share/man/man1/dfu.1
run 1 'a pipe' install PREFIX="$work/pipe"
holds pipe share/man/man1/dfu.1
: > file
run 1 'a file in place of the folder' install PREFIX="$work/file"
is 'it is as it was' test -f file -a ! -s file

# A folder may be a link.
mkdir -p linked/share real
ln -s "$work/real" linked/share/man
run 0 'a folder that is a link' install PREFIX="$work/linked"
is 'what is put there' test -f real/man1/dfu.1
run 0 'a folder that is a link, away' uninstall PREFIX="$work/linked"
is 'it stays' test -h linked/share/man

# The rule of udev.
run 0 'rules' install PREFIX="$work/C" UDEVDIR="$work/rules.d"
is 'what to do then' grep -q 'udevadm control --reload' said
is 'rules' cmp "$top/share/udev/70-dfu.rules" rules.d/70-dfu.rules
rights rules.d/70-dfu.rules 644
: > rules.d/70-other.rules
run 0 'away, but for the rules' uninstall PREFIX="$work/C"
holds rules.d 70-dfu.rules 70-other.rules
run 0 'rules, away' uninstall PREFIX="$work/C" UDEVDIR="$work/rules.d"
holds rules.d 70-other.rules
echo mine > rules.d/70-dfu.rules
run 1 'other rules' install PREFIX="$work/C" UDEVDIR="$work/rules.d"
is 'nothing is made' test -z "$(find C ! -type d)"
run 1 'other rules, away' uninstall PREFIX="$work/C" UDEVDIR="$work/rules.d"
is 'other rules stay' grep -q mine rules.d/70-dfu.rules
sed -n 's/, TAG+="uaccess"$//p' "$top/share/udev/70-dfu.rules" > for_a_seat
sed -n 's/^#\(.*\), MODE="0660", GROUP="[a-z]*"$/\1/p' "$top/share/udev/70-dfu.rules" > for_a_group
is 'the line for a group is of the same devices' cmp for_a_seat for_a_group
equal 'one line' 1 "$(wc -l < for_a_seat)"

# Another user: into a folder of his own, and out of it, but not into one of root's.
if [ "$(id -u)" -eq 0 ] && command -v setpriv > /dev/null; then
    nobody='setpriv --reuid=65534 --regid=65534 --clear-groups'
    mkdir -m 755 of_nobody of_root
    chown 65534:65534 of_nobody
    if $nobody test -r "$top/Makefile" -a -r "$build/dfu"; then
        as=$nobody
        run 0 'nobody' install PREFIX="$work/of_nobody/up"
        holds of_nobody/up $files
        run 0 'nobody, away' uninstall PREFIX="$work/of_nobody/up"
        holds of_nobody
        run 1 'nobody in a folder of root' install PREFIX="$work/of_root/up"
        holds of_root
        as=
        run 0 'root' install PREFIX="$work/of_root/up"
        as=$nobody
        run 1 'nobody takes away what is of root' uninstall PREFIX="$work/of_root/up"
        holds of_root/up $files
        # shellcheck disable=SC2034
        as=
    fi
fi
