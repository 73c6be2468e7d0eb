"""A library's headers: the prototypes of its exports, and what the module takes for granted of its structs' layouts."""
import os
import re

from nulls import SAYS

SIZES = {"uint8_t": 1, "uint16_t": 2, "uint32_t": 4, "uint64_t": 8, "size_t": 8}
POINTER = 8
# The types of C that a parameter of the module may have in the header.
TAKEN_AS = {"ptr": r".*(\*|\]).*", "i64": r"(size_t|uint64_t) \w+", "i32": r"uint32_t \w+", "i16": r"uint16_t \w+", "i8": r"uint8_t \w+"}


class Export:
    def __init__(self, result, parameters):
        self.result = result
        self.parameters = [] if parameters == "void" else re.split(r",\s*", parameters)
        self.names = [re.search(r"(\w+)(?:\[\d+\])?$", it)[1] for it in self.parameters]

    def fits(self, function):
        """Whether the module's function takes and gives what the header says."""
        types = [type for type, _ in function.parameters]
        return (self.result in (f"int{function.result[1:]}_t", f"uint{function.result[1:]}_t") and len(types) == len(self.parameters)
                and all(re.fullmatch(TAKEN_AS.get(type, "-"), it) for type, it in zip(types, self.parameters)))


def prototypes(text):
    """The exports that a text declares."""
    found = re.findall(r"^(u?int32_t|int64_t) (dfu(?:se)?_\w+)\(([^)]*)\);", text, re.M)
    return {name: Export(result, parameters) for result, name, parameters in found}


class Header:
    def __init__(self, *files):
        self.names = [os.path.basename(it) for it in files]
        own = {it: self.read(it) for it in files}
        included = {os.path.join(os.path.dirname(it), name): None for it, text in own.items()
                    for name in re.findall(r'^#include "(\w+\.h)"', text, re.M)}
        paths = [*(it for it in included if it not in own), *own]
        texts = [self.read(it) if it in own else self.before_bodies(self.read(it)) for it in paths]
        self.text = "".join(texts)
        self.files = [prototypes(it) for it in texts]
        self.says_no_null = [SAYS in open(it, encoding="utf-8").read() for it in paths]
        self.exports = {name: it for file in self.files for name, it in file.items()}
        self.sizes = {name: (size, size) for name, size in SIZES.items()}
        self.layouts = []
        for name, body in re.findall(r"^struct (dfu(?:se)?_\w+) \{(.*?)^\};", self.text, re.S | re.M):
            self.lay_out(name, body)

    def leave_out(self, names):
        """Leaves out the exports of an included header that is another library's: the module has none of these names there."""
        included = len(self.files) - len(self.names)
        kept = [it for it in self.files[:included] if it.keys() & names] + self.files[included:]
        self.exports = {name: it for file in kept for name, it in file.items()}

    def forbids_null(self, name):
        """Whether the header that declares an export says that no pointer may be NULL."""
        return any(says for file, says in zip(self.files, self.says_no_null) if name in file)

    @staticmethod
    def before_bodies(text):
        """The types of an included header. Inline calls, with the structs that they alone take, follow its line for a private header."""
        return re.split(r'^#include "\w+_core\.h"', text, flags=re.M)[0]

    def read(self, file):
        """Its text without comments."""
        return re.sub(r"/\*.*?\*/", "", open(file, encoding="utf-8").read(), flags=re.S)

    def lay_out(self, name, body):
        """Each offset, size and alignment of a struct as AArch64 has it, as conditions of C, which the C asserts."""
        at = most = 0
        # (what a processor of 32 bits has behind a pointer, one of 64 bits has in it)
        body = re.sub(r"^#if UINTPTR_MAX <= .*?^#endif$", "", body, flags=re.S | re.M)
        for type, members in re.findall(r"(?:DFU_ALIGNED_8 )?(?:const )?(?:struct )?(\w+) ([^;]*);", body):
            size, align = (POINTER, POINTER) if "*" in members else self.sizes[type]
            for member, count in re.findall(r"(\w+)(?:\[(\d+)\])?", members):
                at = -(-at // align) * align
                most = max(most, align)
                self.layouts.append(f"offsetof(struct {name}, {member}) == {at}")
                at += size * int(count or 1)
        self.sizes[name] = (-(-at // most) * most, most)
        self.layouts += [f"sizeof(struct {name}) == {self.sizes[name][0]}", f"_Alignof(struct {name}) == {most}"]

    def align_of(self, parameter):
        """What the place that a parameter names is a multiple of: of a struct's place what is asserted, of any other 1."""
        found = re.fullmatch(r"(?:const )?struct (\w+) \*\w+", parameter)
        return self.sizes[found[1]][1] if found else 1
