# What format makes, and what it refuses to overwrite; and which mediums are taken.
# shellcheck shell=sh disable=SC2154

# refused STATUS TEXT WORDS..: the status, and a line of standard error.
refused() {
    wanted_status=$1 text=$2 code=0
    shift 2
    timeout 20 ./gadget "$@" > out 2> err || code=$?
    if [ "$code" -eq "$wanted_status" ] && grep -q -e "$text" err; then right; else
        wrong "$*: status $code"
        cat err
    fi
}
fresh
equal 'the rights of a new medium' 600 "$(stat -c %a medium)"
equal 'a sector has bytes of one slot' 16384 "$(stat -c %s medium)"
rm medium
./gadget format medium --most 4064 old
equal 'the least sectors' 8192 "$(stat -c %s medium)"
rm medium
./gadget format medium --most 4065 old
equal 'one byte more is a sector more' 16384 "$(stat -c %s medium)"
cp medium before
refused 1 'there is something already' format medium --most 5000 new
is 'it is kept' cmp -s medium before
is 'with --force' ./gadget format medium --force --most 5000 new
holds 'with --force' new
refused 1 'longer than --most' format medium --force --most 25 new
holds 'a longer image' new
echo text > text
cp text before
refused 1 'there is something already' format text --most 5000 new
is 'a text is kept' cmp -s text before
: > empty
is 'an empty file' ./gadget format empty --most 5000 new
head -c 20000 /dev/zero | tr '\000' '\377' > erased
is 'erased bytes' ./gadget format erased --most 5000 new
ln -s text link
refused 1 'it is a link, and not to a block device' format link --force --most 5000 new
ln -s nowhere dangling
refused 1 'dangling can.t be opened' format dangling --force --most 5000 new
is 'nothing is made behind a link' test ! -e nowhere
is 'a text is kept behind a link' cmp -s text before
mkfifo pipe
refused 1 'neither a regular file nor a block device' format pipe --force --most 5000 new
mkdir somewhere
refused 1 'can.t be opened: Is a directory' format somewhere --force --most 5000 new
refused 1 'neither a regular file nor a block device' format /dev/null --force --most 5000 new
refused 3 'nowhere can.t be read' format another --most 5000 nowhere
refused 1 'at most 16777184' format another --most 16777185 old
is 'nothing is made' test ! -e another
is 'nothing is left beside' test -z "$(find . -name '.dfu-gadget-*')"
refused 3 'can.t be made' format nothere/medium --most 5000 old

# An image, and what has none.
head -c 16384 /dev/zero > blank
refused 1 'it has no image' image blank
refused 1 'it is too small for a medium' image text
refused 1 'it is a link' image link
refused 1 'can.t be opened: No such file' image nowhere
code=0
./gadget image medium > /dev/full 2> err || code=$?
equal 'standard output is full' 3 "$code"
: > host
refused 1 'it has no image' run blank --controller "$udc" --root root
refused 1 'has no room for an image' run medium --controller "$udc" --root root --least 9000
is 'the largest image' ./gadget format largest --most 16777184 old
equal 'the largest medium' 33554432 "$(stat -c %s largest)"
rm largest

# One program has it, and the others are told.
exec 9< medium
flock -n 9
code=0
./gadget format medium --force --most 5000 old > out 2> err || code=$?
exec 9<&-
equal 'a medium in use' 1 "$code"
is 'a medium in use' grep -q 'is in use by another dfu-gadget' err
chmod 666 medium
refused 1 'warning: other users may write it' format medium --most 5000 old
chmod 600 medium
refused 1 'there is something already' format medium --most 5000 old
is 'no warning' test "$(grep -c warning err)" -eq 0

# As nobody, where the tests run as root.
if [ "$(id -u)" -eq 0 ]; then
    mkdir own
    chown 65534 own
    chmod 755 gadget
    nobody() {
        code=0
        setpriv --reuid 65534 --regid 65534 --clear-groups timeout 20 ./gadget "$@" > out 2> err || code=$?
    }
    nobody format own/medium --most 5000 old
    equal 'nobody makes a medium' 0 "$code"
    equal 'nobody has it' 65534 "$(stat -c %u own/medium)"
    refused 1 'warning: other users may write it' format own/medium --most 5000 old
    nobody format medium --force --most 5000 old
    equal 'nobody overwrites none of root' 1 "$code"
    is 'nobody is told' grep -q 'can.t be opened: Permission denied' err
    nobody format medium2 --most 5000 old
    equal 'nobody makes none here' 3 "$code"
    nobody run own/medium --controller "$udc" --root root --dry-run
    equal 'nobody has not the rights' 4 "$code"
    is 'nobody has not the rights' grep -q '^missing: endpoint 0 of upgrade: Permission denied$' out
    is 'nobody has not the rights' grep -q '^missing: gadget upgrade: Permission denied$' out
    is 'nobody has a medium' grep -q '^ok: medium own/medium$' out
fi
