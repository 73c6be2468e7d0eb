"""The lines of a module's functions: each kind that is known, as it is written, and what its words are."""
import re

import text

# How a kind is written: <word:kind> is a word of that kind, <=word> the same word again, and every other sign stands for itself.
WORDS = {
    "name": text.NAME, "number": text.NUMBER, "plain": text.PLAIN, "pair": text.PAIR, "type": text.TYPE, "value": text.VALUE,
    "label": f"%{text.LABEL}", "table": text.TABLE, "function": text.FUNCTION, "count": "[0-9]+", "half": "[01]",
    "sum": "add|sub|mul|udiv|urem|and|or|xor|shl|lshr", "equal": "eq|ne", "order": "eq|ne|ult|ule|ugt|uge|slt|sle|sgt|sge",
    "given": rf"|{text.TYPE} {text.VALUE}(?:, {text.TYPE} {text.VALUE})*",
    "cases": rf"(?: {text.NUMBER} -?[0-9]+, label %{text.LABEL})*",
    "rows": rf"\[ {text.VALUE}, %{text.LABEL} \](?:, \[ {text.VALUE}, %{text.LABEL} \])*",
    "least": r"umin|umax|uadd\.sat|usub\.sat",
}
# What the kit writes.
OF_THE_KIT = {
    "local": "<made:name> = alloca <type:plain>, align <align:count>",
    "array": "<made:name> = alloca [<size:count> x i8], align <align:count>",
    "load": "<made:name> = load <type:plain>, ptr <place:value>, align <align:count>",
    "load_pair": "<made:name> = load { <first:plain>, <second:plain> }, ptr <place:value>, align <align:count>",
    "store": "store <type:plain> <value:value>, ptr <place:value>, align <align:count>",
    "place": "<made:name> = getelementptr i8, ptr <base:value>, i64 <by:value>",
    "sum": "<made:name> = <sum:sum> <type:number> <left:value>, <right:value>",
    "compare": "<made:name> = icmp <order:order> <type:number> <left:value>, <right:value>",
    "compare_places": "<made:name> = icmp <order:equal> ptr <left:value>, <right:value>",
    "widen": "<made:name> = zext <type:number> <value:value> to <to:number>",
    "narrow": "<made:name> = trunc <type:number> <value:value> to <to:number>",
    "half": "<made:name> = extractvalue <type:pair> <value:value>, <half:half>",
    "address": "<made:name> = ptrtoaddr ptr <value:value> to i64",
    "move": "call void @llvm.memmove.p0.p0.i64(ptr <to:value>, ptr <source:value>, i64 <length:value>, i1 false)",
    "fill": "call void @llvm.memset.p0.i64(ptr <to:value>, i8 <value:value>, i64 <length:value>, i1 false)",
    "trap": "call void @llvm.trap()",
    "call": "<made:name> = call <type:type> <function:function>(<given:given>)",
    "call_only": "call void <function:function>(<given:given>)",
    "give": "ret <type:type> <value:value>",
    "give_nothing": "ret void",
    "never": "unreachable",
    "jump": "br label <label:label>",
    "branch": "br i1 <value:value>, label <yes:label>, label <no:label>",
    "switch": "switch <type:number> <value:value>, label <otherwise:label> [<cases:cases> ]",
}
# What widen.py and LLVM's optimiser add.
LATER = {
    "phi": "<made:name> = phi <type:type> <rows:rows>",
    "choose": "<made:name> = select i1 <choice:value>, <type:plain> <left:value>, <=type> <right:value>",
    "same": "<made:name> = freeze <type:type> <value:value>",
    "put_half": "<made:name> = insertvalue <type:pair> <value:value>, <of:plain> <put:value>, <half:half>",
    "to_number": "<made:name> = ptrtoint ptr <value:value> to i64",
    "to_place": "<made:name> = inttoptr i64 <value:name> to ptr",
    "row": "<made:name> = getelementptr <type:number>, ptr <base:table>, i64 <by:value>",
    "least": "<made:name> = call <type:number> @llvm.<least:least>.<=type>(<=type> <left:value>, <=type> <right:value>)",
    "product": "<made:name> = call { i64, i1 } @llvm.umul.with.overflow.i64(i64 <left:value>, i64 <right:value>)",
    "copy": "call void @llvm.memcpy.p0.p0.i64(ptr <to:value>, ptr <source:value>, i64 <length:value>, i1 false)",
    "alive": "call void @llvm.lifetime.start.p0(ptr <of:name>)",
    "dead": "call void @llvm.lifetime.end.p0(ptr <of:name>)",
}


def compiled(kinds):
    """The kinds by their first word, as (kind, pattern, the words that are values)."""
    found = {}
    for kind, written in kinds.items():
        parts = re.split(r"<(\w+):(\w+)>|<=(\w+)>", written)
        pattern, values = re.escape(parts[0]), []
        for name, of, again, rest in zip(parts[1::4], parts[2::4], parts[3::4], parts[4::4]):
            pattern += f"(?P={again})" if again else f"(?P<{name}>{WORDS[of]})"
            pattern += re.escape(rest)
            values += [name] if of == "value" else []
        word = re.sub(r"<\w+:(\w+)>", lambda it: WORDS[it[1]], first_word("  " + written))
        for one in word.split("|"):
            found.setdefault(one, []).append((kind, re.compile("  " + pattern), values))
    return found


def first_word(line):
    """What a line does, as `load`."""
    return re.sub(r"^  (?:\S+ = )?", "", line).split(" ", 1)[0]


FROM_KIT = compiled(OF_THE_KIT)
OPTIMISED = compiled({**OF_THE_KIT, **LATER})


class Line:
    """A line of a function. `number` is that of the file, `kind` a key of the tables above, and line["made"] one of its words."""

    def __init__(self, number, written, kind, words, values):
        self.number, self.written, self.kind, self.words = number, written, kind, words
        self.values = [words[it] for it in values]
        if "given" in words:
            self.given = re.findall(rf"({text.TYPE}) ({text.VALUE})", words["given"])
            self.values += [value for _, value in self.given]
        if "rows" in words:
            self.rows = [(value, label) for value, label in re.findall(rf"\[ ({text.VALUE}), (%{text.LABEL}) \]", words["rows"])]
            self.values += [value for value, _ in self.rows]
        if "cases" in words:
            self.cases = re.findall(rf"{text.NUMBER} (-?[0-9]+), label (%{text.LABEL})", words["cases"])
        if kind == "to_place":
            self.values = [words["value"]]

    def __getitem__(self, word):
        return self.words[word]

    def names(self):
        """The names that the line reads."""
        return [it for it in self.values if it.startswith("%")]

    def is_end(self):
        """Whether nothing of its block comes after it."""
        return self.kind in ("jump", "branch", "switch", "give", "give_nothing", "never")

    def goes_to(self):
        """The labels that may come next."""
        labels = [self.words[it] for it in ("label", "yes", "no", "otherwise") if it in self.words]
        return labels + [label for _, label in self.cases] if self.kind == "switch" else labels


def read_line(number, written, kinds):
    """A line of one of these kinds; None if it is of none."""
    plain = text.plainly(written)
    for kind, pattern, values in kinds.get(first_word(plain), []):
        found = pattern.fullmatch(plain)
        if found:
            return Line(number, written, kind, found.groupdict(), values)
    return None
