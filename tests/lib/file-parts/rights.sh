# What an OUT that is replaced keeps; writes that fail, two at once, and a folder that can't be written.
# shellcheck shell=sh disable=SC2034,SC2086,SC2154

# The rights of OUT stay, and a new OUT has those of a new file.
for mode in 600 640 444 755; do
    cp ones.dfu "m$mode"
    chmod "$mode" "m$mode"
    before=$(rights "m$mode")
    add "m$mode"
    equal "rights $mode" "$before" "$(rights "m$mode")"
done
(umask 027 && "$dfu" add digits.bin fresh > line)
equal 'a new file' '-rw-r----- wrote 25' "$(rights fresh) $(cat line)"

# Of an access list nothing is kept: the group gets the rights of its mask, which may be more than it had. What keeps the list
# is a copy of a new file. A new file in a folder with a default list has that list, also where it takes OUT's place, and there
# OUT's group bits are its mask.
list() { getfacl -cn "$1" 2> /dev/null | tr -d '\n'; }
cp ones.dfu listed
chmod 600 listed
if command -v getfacl > /dev/null && setfacl -m u:1:rw,g::--- listed 2> /dev/null; then
    listed='user::rw-user:1:rw-group::---mask::rw-other::---'
    equal 'a list' "$listed -rw-rw----" "$(list listed) $(rights listed)"
    cp -p listed copied
    add listed
    equal 'a list that is lost' 'user::rw-group::rw-other::--- -rw-rw----' "$(list listed) $(rights listed)"
    add new
    cat new > copied
    same copied digits.dfu
    equal 'a list that is kept' "$listed" "$(list copied)"
    rm new
    mkdir lists
    cp ones.dfu lists/out
    chmod 640 lists/out
    setfacl -m d:u::rw,d:u:1:rwx,d:g::r,d:o::- lists
    add lists/new
    : > lists/any
    equal 'a default list, of a new file' "$(list lists/any)" "$(list lists/new)"
    add lists/out
    equal 'a default list, in place of OUT' 'user::rw-user:1:rwxgroup::r--mask::r--other::---' \
        "$(list lists/out | sed 's/[ \t]*#effective:[rwx-]*//')"
else
    echo "no access lists here (setfacl): left out"
fi

# Another hard link to OUT keeps the old bytes; setuid, setgid and sticky are not kept.
cp ones.dfu hard
ln hard other
chmod 7755 hard
add hard
same other ones.dfu
equal 'no setuid' '-rwxr-xr-x' "$(rights hard)"

# No other file is written, and no link is followed, where the part is made.
cp ones.dfu precious
ln -s precious aim.dfu-part
ln -s precious .dfu-part-0
cp ones.dfu .dfu-part-1
add aim
same precious ones.dfu
same .dfu-part-1 ones.dfu
same aim digits.dfu
equal 'a link for a part' 'precious precious' "$(readlink aim.dfu-part) $(readlink .dfu-part-0)"
rm aim.dfu-part .dfu-part-0 .dfu-part-1
long=$(printf '%255s' '' | tr ' ' n)
add "$long"
add "./$long"
add sub/new

# A write that fails leaves OUT as it was, and no part.
head -c 100000 /dev/zero > big.bin
cp ones.dfu out
expect 3 'fault Write' sh -c "trap '' XFSZ; ulimit -f 8; '$dfu' add big.bin out"
same out ones.dfu
equal 'parts' '' "$(find . -name '*dfu-part*')"

# Two at once: OUT is one of the two, whole.
"$dfu" add big.bin big.dfu > line
for turn in 1 2 3 4 5 6 7 8; do
    rm -f both
    [ "$turn" -lt 5 ] || cp ones.dfu both
    "$dfu" add big.bin both > line1 &
    first=$!
    "$dfu" add digits.bin both $ids > line2 || true
    wait "$first" || true
    equal 'two at once' 'wrote 100016, wrote 25' "$(cat line1), $(cat line2)"
    if cmp -s both big.dfu; then same both big.dfu; else same both digits.dfu; fi
done
equal 'parts' '' "$(find . -name '*dfu-part*')"

# Killed: OUT is the old file or the new one, whole, and the next run isn't held up by what is left.
head -c 16000000 /dev/zero > big.bin
"$dfu" add big.bin big.dfu > line
for wait in 0.01 0.02 0.03 0.04 0.06 0.08; do
    cp digits.dfu out
    "$dfu" add big.bin out > line 2>&1 &
    killed=$!
    sleep "$wait"
    kill -9 "$killed" 2> line || true
    wait "$killed" 2> line || true
    if cmp -s out big.dfu; then same out big.dfu; else same out digits.dfu; fi
    add out
    same out digits.dfu
done
rm -f .dfu-part-*

# A file is held in memory once: this one is made where there is no room for it twice. (An emulator, which a script calls, takes more.)
if [ "$(head -c 2 "$dfu")" = '#!' ]; then
    echo "$dfu is a script: what it takes of memory is not tried"
else
    expect 0 'wrote 16000016' sh -c "ulimit -v 24000; '$dfu' add big.bin out"
    same out big.dfu
fi

# Where the folder can't be written: as another user, if this is root.
cp "$dfu" program
chmod 755 "$work" program
mkdir closed
cp ones.dfu closed/out
chmod 666 closed/out
chmod 755 closed
if [ "$(id -u)" -ne 0 ]; then
    chmod 555 closed
    expect 3 'fault Write' "$dfu" add digits.bin closed/out
    chmod 755 closed
elif command -v setpriv > /dev/null; then
    as_other='setpriv --reuid 65534 --regid 65534 --clear-groups'
    expect 3 'fault Write' $as_other "$work/program" add digits.bin closed/out
    # Root keeps the owner of OUT; who can't gives the new owner's group what all others had.
    cp ones.dfu owned
    chown 65534:65534 owned
    chmod 660 owned
    add owned
    equal 'an owner' '-rw-rw---- 65534 65534' "$(rights owned) $(ls -ln owned | awk '{ print $3, $4 }')"
    mkdir open
    chmod 777 open
    cp ones.dfu open/out
    chmod 664 open/out
    expect 0 'wrote 25' $as_other "$work/program" add digits.bin open/out
    equal 'another owner' '-rw-r--r-- 65534 65534' "$(rights open/out) $(ls -ln open/out | awk '{ print $3, $4 }')"
fi
same closed/out ones.dfu
equal 'parts' '' "$(find . -name '*dfu-part*')"
