# Sessions of a program over the stand-in, for tests/lib/interop/dfu-util and tests/lib/interop/dfu-flash: the clean one, one for each fate
# of each transfer, and those that come after one that was broken off. What `program` is called with, the scripts say; they
# set `uploads` (the word before the file of an upload) and `kind` (download or upload). All stands in $work.

beside=0
kind=download
printf 'the old image' > "$work/old"
export USB_IMAGE="$work/old"

# file BYTES: `payload`, and `file.dfu` made of it by dfu-suffix.
file() {
    random "$1" > payload
    cp payload file.dfu
    dfu-suffix -v 1209 -p 0001 -d 0100 -a file.dfu > said 2>&1
}
# The payload with the 8 bytes in front of it that dfu-prefix writes for devices of TI, and `file.dfu` made of that.
prefixed() {
    dfu-prefix -s 0x1000 -a payload > said 2>&1
    cp payload file.dfu
    dfu-suffix -v 1209 -p 0001 -d 0100 -a file.dfu > said 2>&1
}
# The file that fwupd's example makes (its dfu.builder.xml): 12 bytes for the device 1234:4321 of release DEADh.
example() {
    printf XXXXXXXXXXXX > payload
    { cat payload; printf '\255\336\041\103\064\022\000\001UFD\020\002mO/'; } > file.dfu
}
# session PLACE FATE WORDS..: one run of the program; it leaves its words, the log, its status and the image in PLACE.
session() {
    place=$1
    planned=$2
    shift 2
    status=0
    [ "$kind" = download ] || set -- "$@" "$uploads" "$place/upload"
    USB_FATE=$planned USB_LOG=$place/log USB_SAVE=$place/image LD_LIBRARY_PATH=$work \
        timeout 60 "$program" "$@" > "$place/out" 2> "$place/err" || status=$?
    echo "$status" > "$place/status"
}
# one SCENE FATE NUMBER MORE WORDS..: a session with that fate at the transfer of that number.
one() {
    scene=$1
    fate=$2
    number=$3
    plan="$2 $3${4:+ $4}"
    [ "$fate" != clean ] || plan=
    shift 4
    place=$work/runs/$scene-$fate-$number
    mkdir -p "$place"
    session "$place" "$plan" "$@"
    tell "$scene" "$fate" "$number" "$place"
}
# again SCENE NUMBER WORDS..: a session that is killed before that transfer, and then a whole one on the same device; where
# that one doesn't come to what it is for, one more.
again() {
    scene=$1
    number=$2
    shift 2
    place=$work/runs/$scene-killed-$number
    mkdir -p "$place"
    USB_STATE=$place/state
    export USB_STATE
    session "$place" "kill $number" "$@"
    rm -f "$place/upload"
    session "$place" '' "$@"
    tell "$scene" killed "$number" "$place"
    case $made in
    new | 'the image') ;;
    *)
        mv "$place/result" "$place/before"
        rm -f "$place/upload"
        session "$place" '' "$@"
        tell "$scene" again "$number" "$place"
        cat "$place/before" >> "$place/result"
        ;;
    esac
    unset USB_STATE
}
# side COMMAND..: sixteen at once, which sleep most of their time.
side() {
    "$@" &
    beside=$((beside + 1))
    [ $((beside % 16)) -ne 0 ] || wait
}
# clean SCENE ATTRIBUTES START WORDS..: the session in which all goes well.
clean() {
    scene=$1
    export USB_ATTRIBUTES="$2" USB_START="$3"
    shift 3
    one "$scene" clean '' '' "$@"
}
# every SCENE SHOWN ATTRIBUTES START WORDS..: that session, and one for each fate of each of its transfers. The table has
# rows for the transfers up to the number SHOWN.
every() {
    shown=$2
    scene=$1
    shift 2
    clean "$scene" "$@"
    shift 2
    base=$work/runs/$scene-clean-
    grep '^[0-9]' "$base/log" > "$base/transfers"
    awk -v shown="$shown" '$1 <= shown' "$base/transfers" > "$base/shown"
    while read -r number request rest; do
        for fate in lost-out lost-back twice leave; do
            side one "$scene" "$fate" "$number" '' "$@"
        done
        case $request in
        GETSTATUS | UPLOAD) side one "$scene" short "$number" 3 "$@" ;;
        esac
        [ "$number" -eq 0 ] || side again "$scene" "$number" "$@"
    done < "$base/transfers"
    wait
}
