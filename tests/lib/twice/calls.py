#!/usr/bin/env python3
"""calls.py INCLUDE FOLDER: writes twice.c and c_names.h. A program that is linked with twice.c makes each call of the libraries twice: of
plain Rust (r_NAME) on copies of what the call may change, and of dist/*.c (c_NAME, by c_names.h). The results and each byte, padding left
out, are compared, and the program goes on with what the C did. At its end it says how many calls there were and how many differed."""
import os
import re
import subprocess
import sys

HEADERS = ("dfu_core.h", "dfu_host.h", "dfu_image.h", "dfu_trial_core.h", "dfu_install_core.h", "dfu_home_core.h", "dfuse_host.h",
           "dfuse_file.h", "dfu_watch.h", "dfuse_watch.h")
# (an inline call of a header is declared too, and no library has it)
CALL = re.compile(r"(?<!static inline )(?<![\w{])(u?int32_t) (dfu(?:se)?_\w+)\(([^(){};]*)\);")
PARAMETER = re.compile(r"(.*?[ *])(\w+)(\[\d+\])?")
# Types of arrays that a call takes with the number of their elements behind them.
ELEMENT = "struct dfuse_element"
COUNTED = ("uint8_t", ELEMENT)
HEAD = """#include <stdio.h>
#include <stdlib.h>
#include <string.h>
%s

static unsigned long calls, differing;
static void differs(const char *name, const char *what, const void *r, const void *c, size_t count) {
    const unsigned char *a = r, *b = c;
    size_t i = 0;
    while (i < count && a[i] == b[i])
        i++;
    if (differing++ < 10)
        fprintf(stderr, "DIFFERS %%s: %%s, call %%lu, byte %%zu: %%02x in Rust, %%02x in C\\n", name, what, calls, i, a[i], b[i]);
}
__attribute__((destructor)) static void end(void) {
    fprintf(stderr, "twice: %%lu calls, %%lu differ\\n", calls, differing);
}
static void *copy(const void *from, size_t count) {
    void *made = malloc(count + 1);
    if (!made)
        abort();
    if (count)
        memcpy(made, from, count);
    return made;
}
/* An element in Rust has a pointer and a length of the processor's size; in C each takes 8 bytes. They are the same but on 32 bits. */
struct element_in_rust {
    uint32_t address;
    const uint8_t *bytes;
    size_t length;
};
static struct element_in_rust *to_rust(const struct dfuse_element *from, size_t count) {
    struct element_in_rust *made = malloc(count * sizeof *made + 1);
    if (!made)
        abort();
    for (size_t i = 0; i < count; i++)
        made[i] = (struct element_in_rust){from[i].address, from[i].bytes, from[i].length};
    return made;
}
static void of_rust(struct dfuse_element *to, const struct element_in_rust *from, size_t count) {
    for (size_t i = 0; i < count; i++)
        to[i].address = from[i].address, to[i].bytes = from[i].bytes, to[i].length = from[i].length;
}
"""


def calls_of(include):
    """Each call: its name with the type of its result and its parameters."""
    found = {}
    for header in HEADERS:
        words = ["gcc", "-E", "-P", "-I", include, os.path.join(include, header)]
        text = subprocess.run(words, capture_output=True, text=True, check=True).stdout
        for result, name, parameters in CALL.findall(" ".join(text.split())):
            found[name] = (result, [] if parameters.strip() == "void" else [it.strip() for it in parameters.split(",")])
    return found


def count_of(kind, array, following):
    """How many bytes a parameter points at that a call may change."""
    base = kind.rstrip("*").strip()
    if array:
        return f"{array[1:-1]} * sizeof({base})"
    if following.startswith("size_t") and base in COUNTED:
        return f"{following.split()[-1]} * sizeof({base})"
    return f"sizeof({base})"


def changed(kind, word, count, call):
    """The lines for a parameter that a call may change: before the calls, and after them."""
    base = kind.rstrip("*").strip()
    before = [f"size_t n_{word} = {count};", f"{base} *r_{word} = copy({word}, n_{word});"]
    after = [f"{base} *c_{word} = copy({word}, n_{word});"]
    if base.startswith("struct"):
        after += [f"for (size_t i = 0; i < n_{word} / sizeof({base}); i++) {{", f"    __builtin_clear_padding(&r_{word}[i]);",
                  f"    __builtin_clear_padding(&c_{word}[i]);", "}"]
    after += [f"if (n_{word} && memcmp(r_{word}, c_{word}, n_{word}))", f'    differs("{call}", "{word}", r_{word}, c_{word}, n_{word});',
              f"free(r_{word});", f"free(c_{word});"]
    return before, after


def elements(word, given, count, is_changed):
    """The lines for a list of elements, which Rust is given in its own form: before the call in Rust, and after it."""
    back = [f"of_rust({given}, e_{word}, {count});"] if is_changed else []
    return [f"struct element_in_rust *e_{word} = to_rust({given}, {count});"], [*back, f"free(e_{word});"]


def twice(name, result, parameters):
    """The function that makes a call twice."""
    before, after, of_rust, of_c = [], [], [], []
    for at, parameter in enumerate(parameters):
        kind, word, array = PARAMETER.fullmatch(parameter).groups()
        kind = kind.strip()
        of_c.append(word)
        if (array or kind.endswith("*")) and not kind.startswith("const"):
            count = count_of(kind, array, parameters[at + 1] if at + 1 < len(parameters) else "")
            lines = changed(kind, word, count, name)
            before += lines[0]
            after += lines[1]
            of_rust.append(f"r_{word}")
        else:
            of_rust.append(word)
        if ELEMENT in kind:
            lines = elements(word, of_rust.pop(), parameters[at + 1].split()[-1], not kind.startswith("const"))
            before += lines[0]
            after = lines[1] + after
            of_rust.append(f"e_{word}")
    types = ", ".join(parameters) or "void"
    in_rust = types.replace(ELEMENT, "struct element_in_rust")
    body = ["calls++;", *before, f"{result} r = r_{name}({', '.join(of_rust)});", f"{result} c = c_{name}({', '.join(of_c)});",
            "if (r != c)", f'    differs("{name}", "result", &r, &c, sizeof r);', *after, "return c;"]
    return (f"{result} r_{name}({in_rust});\n{result} c_{name}({types});\n{result} {name}({types}) {{\n"
            + "".join(f"    {it}\n" for it in body) + "}\n")


def main():
    include, folder = sys.argv[1:]
    found = calls_of(include)
    with open(os.path.join(folder, "twice.c"), "w", encoding="utf-8") as file:
        file.write(HEAD % "\n".join(f'#include "{it}"' for it in HEADERS))
        file.write("\n".join(twice(name, *found[name]) for name in sorted(found)))
    with open(os.path.join(folder, "c_names.h"), "w", encoding="utf-8") as file:
        file.write("".join(f"#define {it} c_{it}\n" for it in sorted(found)))


main()
