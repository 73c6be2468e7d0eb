# Rows of tests/apps/flash: uploads, and which files are made: never over one that is there but by force, no part of one, and nothing
# that isn't the user's to write.

row 0 old 'uploaded: ' '' --upload up
expect 'an upload' cmp old up
printf mine > up
row 3 old '' '' --upload up
expect 'it is there' grep -q mine up
expect 'it is there: nothing is sent' is_silent
chmod 640 up
ln up twin
row 0 old 'uploaded: ' '' --force --upload up
expect 'by force' cmp old up
expect 'by force: rights' test "$(stat -c %a up)" = 640
expect 'by force: another name' grep -q mine twin
ln -s twin link
ln -s nothing dangling
mkdir folder
mkfifo pipe
for what in link dangling folder pipe; do
    row 3 old '' '' --upload "$what"
    row 3 old '' '' --force --upload "$what"
done
expect 'links stay' test "$(readlink link)-$(readlink dangling)-$(cat twin)" = twin-nothing-mine
expect 'nothing is made' test ! -e nothing
expect 'a folder and a pipe stay' test -d folder -a -p pipe
row 3 old '' '' --upload nowhere/up
row 0 old 'uploaded: ' 'USB_START=app' --upload folder/up
row 7 - 'gave-up: ' '' --limits 2 0 --upload folder/other
expect 'no file of a part' test "$(ls -A folder)" = up
if command -v strace > /dev/null && strace -o /dev/null true 2> /dev/null; then
    for calls in '?renameat2' '?renameat2,?link,?linkat'; do
        as="strace -o /dev/null -e inject=$calls:error=EINVAL"
        row 0 old 'uploaded: ' '' --upload "folder/up-$calls"
        expect "a file system without $calls" cmp old "folder/up-$calls"
    done
    as=
    expect 'nothing is beside them' test "$(find folder -name '.*' -type f | wc -l)" -eq 0
fi
if [ "$(id -u)" -eq 0 ] && command -v setpriv > /dev/null; then
    as='setpriv --reuid=65534 --regid=65534 --clear-groups'
    nobodys="USB_SAVE=/dev/null USB_LOG=/dev/null"
    mkdir sticky open
    chmod 1777 sticky
    chmod 777 open
    for place in sticky open; do
        printf mine > $place/read
        printf mine > $place/write
        chmod 644 $place/read
        chmod 664 $place/write
        chown 0:0 $place/*
        row 3 - '' "$nobodys" --force --upload $place/read
        row 3 - '' "$nobodys" --force --upload $place/write
        chmod 666 $place/write
        row 0 - 'uploaded: ' "$nobodys" --upload $place/new
        expect 'a new file' cmp old $place/new
    done
    row 3 - '' "$nobodys" --force --upload sticky/write
    row 0 - 'uploaded: ' "$nobodys" --force --upload open/write
    expect 'what stays' test "$(cat sticky/read sticky/write open/read)" = mineminemine
    expect 'what is replaced' test "$(stat -c %u-%a open/write)" = 65534-666
    expect 'nothing else is there' test "$(find sticky open -type f | wc -l)" -eq 6
    as=
    row 0 - 'uploaded: ' '' --force --upload sticky/new
    expect 'the owner stays' test "$(stat -c %u sticky/new)" = 65534
    row 3 - '' '' --force --upload /dev/null
    expect 'a device stays' test -c /dev/null
fi
