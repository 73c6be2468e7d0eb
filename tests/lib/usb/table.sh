# The tables of tests/lib/interop/dfu-util and tests/lib/interop/dfu-flash: made of the results of runs, and compared with the files of
# docs/interop. A result is a line with tabs between: scene, fate, transfer, outcome, last line, transfers, state, what stands or was made.
# A scene's first letter is its place. The scripts say what an outcome is, and what its column is called.

# What stands on the device: old, new (the payload) or other. With `front` set, behind either may stand more.
front=
image() {
    for name in old payload; do
        cp "$1/image" "$1/stands"
        [ -z "$front" ] || head -c "$(wc -c < $name)" "$1/image" > "$1/stands"
        if cmp -s "$1/stands" "$name"; then
            [ "$name" = old ] && echo old || echo new
            return
        fi
    done
    echo other
}
# What an upload made of the image on the device: nothing, all of it, or how much of its front.
upload() {
    size=0
    [ ! -e "$1/upload" ] || size=$(wc -c < "$1/upload")
    if [ "$size" -eq 0 ]; then
        echo 'no bytes'
    elif cmp -s "$1/upload" "$1/image"; then
        echo 'the image'
    elif head -c "$size" "$1/image" | cmp -s - "$1/upload"; then
        echo "$size bytes of it"
    else
        echo 'other bytes'
    fi
}
# The last line of the stream that the script takes for a run's words, without the program's name.
last_line() {
    tr '\r' '\n' < "$(words "$1")" | sed 's/^dfu-[a-z]*: //; s/[[:space:]]*$//' | grep . | tail -n 1
}
# tell SCENE FATE NUMBER PLACE: what came out, as PLACE/result. An upload leaves the image as it is.
tell() {
    made=$(image "$4")
    [ "$kind" = download ] || [ "$made" != old ] || made=$(upload "$4")
    end=$(tail -n 1 "$4/log")
    printf '%s\t%s\t%s\t%s\t%s\t' "$1" "$2" "$3" "$(outcome "$4")" "$(last_line "$4")" > "$4/result"
    # shellcheck disable=SC2086
    set -- "$4" $end
    printf '%s\t%s\t%s\n' "$3" "$4" "$made" >> "$1/result"
}
# The sessions in which all goes well, a row each.
session_rows() {
    printf 'session\t%s\tlast line\ttransfers\tstate\timage, or what was made\n' "$outcomes"
    awk -F '\t' -v OFS='\t' '$2 == "clean" { print substr($1, 3), $4, $5, $6, $7, $8 }' "$1"
}
# fault_rows RESULTS: a row for each transfer of each session, a cell for each fate: outcome, after how many transfers, state, image.
fault_rows() {
    printf 'session\ttransfer\trequest, wValue, wLength\tlost on the way out\tits answer lost\thandled twice\tcut to 3 bytes\t'
    printf 'power gone\tkilled, run again\n'
    cut -f 1,2 "$1" | grep -v 'clean$' | cut -f 1 | LC_ALL=C sort -u | while read -r scene; do
        while read -r number request value length rest; do
            awk -F '\t' -v OFS='\t' -v scene="$scene" -v number="$number" -v request="$request $value $length" '
                $1 == scene && $3 == number && $2 != "clean" { cell[$2] = $4 " after " $6 ", " $7 ", " $8 }
                function shown(fate) { return (fate in cell) ? cell[fate] : "-" }
                END {
                    if ("again" in cell)
                        cell["killed"] = cell["killed"] "; then " cell["again"]
                    print substr(scene, 3), number, request, shown("lost-out"), shown("lost-back"), shown("twice"), shown("short"), \
                        shown("leave"), shown("killed")
                }' "$1"
        done < "$work/runs/$scene-clean-/shown"
    done
}
# All runs, by how they ended and what stood then.
end_rows() {
    printf 'device\t%s\timage, or what was made\truns\n' "$outcomes"
    awk -F '\t' -v OFS='\t' '
        { runs[($1 ~ /U-Boot/ ? "U-Boot" : $1 ~ /small/ ? "small" : "proved") OFS $4 OFS $8]++ }
        END { for (end in runs) print end, runs[end] }' "$1" | LC_ALL=C sort
}
# What was said last, and in how many runs.
line_rows() {
    printf '%s\tlast line\truns\n' "$outcomes"
    awk -F '\t' -v OFS='\t' '{ runs[$4 OFS $5]++ } END { for (end in runs) print end, runs[end] }' "$1" | LC_ALL=C sort
}
# tables NAME RESULTS: makes the program's tables, and counts whether docs/interop has exactly these; with WRITE in the
# environment they are written there.
tables() {
    mkdir made kept
    session_rows "$2" > "made/$1-sessions.tsv"
    fault_rows "$2" > "made/$1-faults.tsv"
    end_rows "$2" > "made/$1-ends.tsv"
    [ "$outcomes" != exit ] || line_rows "$2" > "made/$1-lines.tsv"
    folder=$top/docs/interop
    if [ -n "${WRITE-}" ]; then
        rm -f "$folder/$1"-*.tsv
        mkdir -p "$folder"
        cp made/* "$folder/"
    fi
    cp "$folder/$1"-*.tsv kept/ 2> /dev/null || :
    equal "docs/interop has the tables of $1" '' "$(diff -r kept made)"
    echo "$passed passed, $failed failed"
    [ "$failed" -eq 0 ] && [ "$passed" -gt 1 ]
}
