"""Expressions of C for what a module computes. Each value has the type of C that holds it, uint8_t to uint64_t; a bool is 0 or 1.

Sums are made in unsigned types, so none overflows: what has fewer than 32 bits is cast back from the int that C makes of it."""
from typing import NamedTuple

from text import bits, bytes_of, constant, width

SIGNS = {"add": "+", "sub": "-", "mul": "*", "and": "&", "or": "|", "xor": "^", "udiv": "/", "urem": "%", "shl": "<<", "lshr": ">>"}
OPPOSITE = {"==": "!=", "!=": "==", "<": ">=", ">=": "<", ">": "<=", "<=": ">"}
ORDERS = {"eq": "==", "ne": "!=", "ult": "<", "ule": "<=", "ugt": ">", "uge": ">="}
NAME, CAST, SUM, ROW = range(4)


class Expression(NamedTuple):
    """Text of C. The rank says where it needs brackets: a SUM as a part of anything, a CAST before [] and the like. A ROW is what a table
    has at a place that the next line loads. A comparison has the text of the opposite one besides."""
    text: str
    rank: int = NAME
    opposite: str = ""

    def part(self):
        return f"({self.text})" if self.rank == SUM else self.text

    def head(self):
        return self.text if self.rank == NAME else f"({self.text})"


def c_type(type):
    """The type of C for a type of the module. `size` is that of an i64 that is a size_t."""
    if type in ("ptr", "size"):
        return "unsigned char *" if type == "ptr" else "size_t"
    return "struct " + "_".join(type[2:-2].split(", ")) if type[0] == "{" else f"uint{width(type)}_t"


def number(it):
    """A number, of the smallest of int, uint32_t and uint64_t."""
    return Expression(str(it) if it < 1 << 15 else f"{it:#x}U" if it < 1 << 32 else f"{it:#x}ULL")


def cast(type, it):
    return Expression(f"({c_type(type)}){it.part()}", CAST)


def cut(type, it):
    """Of a number of C the bits that its type has in the module, if these are fewer."""
    return it if bits(type) == width(type) else Expression(f"{it.part()} & {number((1 << bits(type)) - 1).text}", SUM)


def narrowed(type, it):
    """What an int of C is in a type of fewer than 32 bits."""
    return cast(type, it) if 1 < bits(type) and width(type) < 32 else it


def sum_of(kind, type, left, right, count):
    """`left kind right`. `count`: of a shift by a constant, that. Other shifts are by fewer bits than the type has, as it is proved, or
    nobody reads what they make; C is handed those bits alone, since it may not shift by more."""
    if kind in ("shl", "lshr") and (count is None or count >= bits(type)):
        right = Expression(f"{right.part()} & {width(type) - 1}", SUM)
    if width(type) < 32 and kind in ("mul", "shl"):
        left = cast("i32", left)
    made = Expression(f"{left.part()} {SIGNS[kind]} {right.part()}", SUM)
    if kind in ("and", "or", "xor"):
        return made
    return narrowed(type, cut(type, made) if kind in ("add", "sub", "mul", "shl") else made)


def compared(order, left, right):
    sign = ORDERS[order]
    return Expression(f"{left.part()} {sign} {right.part()}", SUM, f"{left.part()} {OPPOSITE[sign]} {right.part()}")


def without_sign(type, it, known):
    """The unsigned number whose place among the unsigned ones is its place among those with a sign; `known` if it is a constant."""
    top = 1 << (bits(type) - 1)
    return narrowed(type, Expression(f"{it.part()} ^ {number(top).text}", SUM)) if known is None else number(known ^ top)


def negated(it):
    return Expression(it.opposite, SUM, it.text) if it.opposite else Expression(f"!{it.part()}", CAST)


def widened(it, to):
    """(What has fewer than 32 bits is an int to C, with the same number.)"""
    return it if width(to) < 32 else cast(to, it)


def made_narrow(it, to):
    return Expression(f"{it.part()} & 1", SUM) if to == "i1" else cast(to, cut(to, it))


def moved(place, by):
    """A place so many bytes on, or back."""
    if by == 0:
        return place
    return Expression(f"{place.part()} {'+' if by > 0 else '-'} {number(abs(by)).text}", SUM)


def byte_at(place):
    """The byte there, as C reads or writes it."""
    base, plus, by = place.text.partition(" + ")
    return f"{base}[{by}]" if plus and base.isidentifier() else f"*{place.part()}"


def size_of(it):
    """A number of 64 bits as a size_t."""
    is_cast = it.rank == CAST and it.text.startswith("(uint64_t)")
    return Expression(f"(size_t){it.text[10:] if is_cast else it.part()}", CAST)


def access(type, align):
    """The end of the name of what loads or stores a number at a place that is a multiple of `align`: its bits; and unless the place is a
    multiple of all its bytes, u for a multiple of 1, or a2 or a4."""
    size = 8 if type == "size" else bytes_of(type)
    align = min(it for it in (1, 2, 4, 8) if it == align or 2 * it > size)
    return f"{'_size' if type == 'size' else size * 8}{'' if align == size else 'u' if align == 1 else f'a{align}'}"
