# What scripts share that build the libraries, or look at their archives. They have read counting.sh, and set `compiler`.
# shellcheck shell=sh disable=SC2154

# libraries FOLDER FLAGS: make builds the libraries by $compiler with these flags, in $work/FOLDER.
libraries() {
    mkdir -p "$work/$1"
    make -s -C "$top" libraries BUILD="$work/$1" CC="$compiler" CFLAGS="$2" > "$work/log" 2>&1 || {
        tail -n 5 "$work/log"
        exit 1
    }
}
# is_small LIBRARY MOST: it is under so many bytes with its read-only data, and has no other data.
is_small() {
    "${compiler%gcc}size" "$1" | awk -v most="$2" 'NR > 1 { text += $1; data += $2 + $3 }
        END { print "  " text " bytes of text, " data " of data"; exit !(text > 0 && text < most && data == 0) }'
}
# taken LIBRARY CALL..: what a program that makes these calls takes of a library, as the object file $work/taken.o.
taken() {
    library=$1
    shift
    for call in "$@"; do
        set -- "$@" "-Wl,-u,$call"
        shift
    done
    # shellcheck disable=SC2086
    "$compiler" ${flags-} -r -nostdlib -Wl,--gc-sections "$@" "$library" -o "$work/taken.o" &&
        "${compiler%gcc}objcopy" --strip-unneeded "$work/taken.o"
}
# needs_only LIBRARY PATTERN: all that it wants of others.
needs_only() {
    "${compiler%gcc}nm" -u "$1" > "$work/wanted" || return 1
    awk '$1 == "U" { print $2 }' "$work/wanted" | sort -u > "$work/undefined"
    ! grep -vxE "$2" "$work/undefined"
}
