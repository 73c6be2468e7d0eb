# Plants the faults of the file `faults` in a header: a function that has some begins with a copy of its body for each, which runs if
# `planted` is the fault's number. White space counts as one blank. A fault whose text does not stand in the body once is left out.
function with_fault(number, text,   at) {
    gsub(/[ \t\n]+/, " ", text)
    at = index(text, old[number])
    if (at > 0 && index(substr(text, at + 1), old[number]) == 0)
        printf "if (planted == %d) {%s%s%s}\n", number, substr(text, 1, at - 1), new[number], substr(text, at + length(old[number]))
}
BEGIN {
    while ((getline line < faults) > 0) {
        if (line ~ /^#/)
            continue
        count++
        colon = index(line, ": ")
        arrow = index(line, " =>")
        name[count] = substr(line, 1, colon - 1) "("
        old[count] = substr(line, colon + 2, arrow - colon - 2)
        new[count] = substr(line, arrow + 4)
    }
    print "extern int planted;"
}
/^static inline / { part = 1 }
part == 0 { print }
part == 2 && /^}/ {
    for (i = 1; i <= count; i++)
        if (index(head, " " name[i]))
            with_fault(i, body)
    print body "}"
    part = 0
    head = body = ""
}
part == 2 { body = body $0 "\n" }
part == 1 {
    print
    head = head $0
    part = /\{$/ ? 2 : /;$/ ? 0 : 1
    if (part == 0)
        head = ""
}
