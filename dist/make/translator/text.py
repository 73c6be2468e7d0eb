"""The words of LLVM's text: types, names and values, and what a line promises besides."""
import re

NUMBER = r"i(?:[1-9]|[1-5][0-9]|6[0-4])"
PLAIN = rf"(?:{NUMBER}|ptr)"
PAIR = rf"\{{ {PLAIN}, {PLAIN} \}}"
TYPE = rf"(?:{PLAIN}|{PAIR})"
LABEL = r'(?:[-A-Za-z0-9._$]+|"[^"]+")'
NAME = f"%{LABEL}"
# A table of constants: one of the module's, or one that the optimiser made of a switch.
TABLE = r'@(?:static\.[0-9]+|switch\.table\.[A-Za-z0-9._]+|"switch\.table\.[^"]+")'
FUNCTION = r'@"[^"]+"'
# The program's function that reads flash which is not mapped (reads.py), and the word by which a compiler of C is told its name.
READER, READER_IN_C = '@"program::read"', "DFU_READ"
SIMPLE = rf"(?:{NAME}|-?[0-9]+|true|false|null|poison|{TABLE}|ptrtoint \(ptr {TABLE} to i64\))"
VALUE = rf"(?:{SIMPLE}|zeroinitializer|\{{ {PLAIN} {SIMPLE}, {PLAIN} {SIMPLE} \}})"
PARAMETER = rf"{TYPE} %a[0-9]+"

# What a module promises of a value, beside its type. C is not told: it holds of every run, as it is proved.
PROMISE = re.compile(
    r" (?:noundef|zeroext|signext|nonnull|readonly|writeonly|readnone|returned|nofree|captures\([a-z_: ,]+\)|align [0-9]+"
    r"|dereferenceable\([0-9]+\)|initializes\((?:\(-?[0-9]+, -?[0-9]+\)(?:, )?)+\)|range\(i[0-9]+ -?[0-9]+, -?[0-9]+\))(?= )")
# What a line promises of its sum, and the numbers of what is said of it at the end of the text.
FLAGS = re.compile(r"^(  \S+ = (?:add|sub|mul|shl|lshr|udiv|or|trunc|zext|icmp|getelementptr))"
                   r"(?: nuw| nsw| exact| disjoint| nneg| samesign| inbounds)+(?= )")
REMARKS = re.compile(r"(?:, ![a-z.]+ ![0-9]+)+$")


def plainly(text):
    """A line without what it promises."""
    text = REMARKS.sub("", text)
    if re.match(r"define |  (?:\S+ = )?(?:tail |notail )?call ", text):
        text = re.sub(r"\b(?:tail |notail )?(call|internal) (?:fastcc )?", r"\1 ", text, count=1)
        while PROMISE.search(text):
            text = PROMISE.sub("", text)
        text = re.sub(r"\)(?: local_unnamed_addr| unnamed_addr)?(?: #[0-9]+)?( \{)?$", r")\1", text)
    return FLAGS.sub(r"\1", text)


def bits(type):
    """How many bits a value has; a pointer is 64 wide in memory."""
    return 64 if type == "ptr" else int(type[1:])


def bytes_of(type):
    return (bits(type) + 7) // 8


def width(type):
    """The bits of the smallest type of C that holds it."""
    return min(it for it in (8, 16, 32, 64) if it >= bits(type))


def halves(pair):
    """The two types of a pair."""
    return pair[2:-2].split(", ")


def constant(type, text):
    """The number that a value of this type is; None if it is no constant. For `poison` any number is right, so it is 0."""
    if text in ("true", "false", "poison"):
        return int(text == "true")
    return int(text) % (1 << bits(type)) if re.fullmatch(r"-?[0-9]+", text) else None
