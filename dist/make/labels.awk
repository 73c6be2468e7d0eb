# labels.awk: assembly of the kit's clang (x86-64 and AArch64, ELF) in a form that older assemblers read, and that changes little when the
# code does. It changes no instruction; `dist/make/assembly` holds the object of what it writes against the object of what it read.
#
#   .LBB7_3     3         a block of a function
#   .LJTI7_0    10000     a table of jumps
#   .LCPI7_1    20001     a constant
#
# clang's labels count the functions of the file, so one more function changes every label after it. Here each function begins anew, and
# a reference says on which side its label is: 3f is the next 3, and 3b the last one. A function's end has no label: its size is set there.
# A name in quotation marks, as "dfu_host::asking::send", gets letters, digits, dots and _ alone: dfu_host.asking.send.
#
# Status 1, with a line for each: a label that would mean another place, two names that would become one, a label that is not known.

function refuse(why, here) {
    print "labels: line " here ": " why > "/dev/stderr"
    is_refused = 1
}

function is_label(text) { return text ~ /^\.L(BB|JTI|CPI)[0-9]+_[0-9]+$/ }

# The number that a label gets.
function number(label,    kind) {
    kind = substr(label, 3, 1)
    sub(/^[^_]*_/, "", label)
    return label + (kind == "B" ? 0 : kind == "J" ? 10000 : 20000)
}

# The label that a line defines, or nothing.
function defined(text) {
    return text ~ /^\.L[A-Za-z0-9_]+:$/ ? substr(text, 1, length(text) - 1) : ""
}

# A name without its marks.
function plain(name, here,    made) {
    made = substr(name, 2, length(name) - 2)
    gsub(/::/, ".", made)
    gsub(/[^A-Za-z0-9_.$]+/, "_", made)
    if ((made in of) && of[made] != name)
        refuse(name " and " of[made] " would become one", here)
    of[made] = name
    return made
}

# A line whose names have no marks. What else is in marks is no name: texts, and the flags of a section.
function unmarked(text, here,    made, head) {
    if (text ~ /^\t\.(ascii|asciz|ident|file)\t/)
        return text
    if (text ~ /^\t\.section\t/) {
        if (!match(text, /^\t\.section\t"\.(text|rodata|data|bss)\.[^"]*"/))
            return text
        head = length("\t.section\t")
        return substr(text, 1, head) plain(substr(text, head + 1, RLENGTH - head), here) substr(text, RLENGTH + 1)
    }
    made = ""
    while (match(text, /"[^"]*"/)) {
        made = made substr(text, 1, RSTART - 1) plain(substr(text, RSTART, RLENGTH), here)
        text = substr(text, RSTART + RLENGTH)
    }
    return made text
}

# A line whose references to labels after it (side "f") or before it (side "b") are numbers.
function numbered(text, here, side,    made, label, n) {
    if (text ~ /^\t\.asci[iz]\t/)
        return text
    made = ""
    while (match(text, /\.L(BB|JTI|CPI)[0-9]+_[0-9]+/)) {
        label = substr(text, RSTART, RLENGTH)
        n = number(label)
        made = made substr(text, 1, RSTART - 1)
        if ((at[label] > here) == (side == "f")) {
            if (nearest[n] != at[label])
                refuse(label " would be another place", here)
            made = made n side
        } else
            made = made label
        text = substr(text, RSTART + RLENGTH)
    }
    return made text
}

{
    line[NR] = unmarked($0, NR)
    label = defined(line[NR])
    if (label != "") {
        at[label] = NR
        if (!is_label(label) && label !~ /^\.Lfunc_end[0-9]+$/)
            refuse("the label " label " is not known", NR)
    }
}

END {
    for (i = NR; i >= 1; i--) {
        label = defined(line[i])
        if (is_label(label))
            nearest[number(label)] = i
        else if (label == "")
            line[i] = numbered(line[i], i, "f")
    }
    for (n in nearest)
        delete nearest[n]
    for (i = 1; i <= NR; i++) {
        label = defined(line[i])
        if (is_label(label)) {
            nearest[number(label)] = i
            print number(label) ":"
        } else if (label != "") {
            ended = label
            end = i
        } else {
            text = numbered(line[i], i, "b")
            if (match(text, /\.Lfunc_end[0-9]+/)) {
                if (text !~ /^\t\.size\t/ || substr(text, RSTART, RLENGTH) != ended || end != i - 1)
                    refuse("the end of a function is used elsewhere", i)
                sub(/\.Lfunc_end[0-9]+/, ".", text)
            }
            print text
        }
    }
    exit is_refused
}
