"""The source that a function was proved in: its file in crates/, beside the folder of the header. The module has no line numbers."""
import glob
import os
import re


class Sources:
    """Looks for functions by name. `folder` is that of the crates; nothing is found where there is none."""

    def __init__(self, folder):
        self.folder, self.texts = os.path.normpath(folder), {}

    def files(self, crate):
        """The text of each file of a crate, by its name."""
        for name in glob.glob(os.path.join(self.folder, crate, "src", "**", "*.rt"), recursive=True):
            if name not in self.texts:
                self.texts[name] = open(name, encoding="utf-8").read()
            yield os.path.relpath(name, os.path.dirname(self.folder)), self.texts[name]

    def of(self, path):
        """The file that defines a function of the module, as crates/dfu_asks/src/cut.rt; "" unless there is one alone, or one that has the
        name of the function's module."""
        parts = re.sub(r"::<.*", "", path).split("::")
        crate = parts[0] if len(parts) > 1 else "*_c"
        found = [name for name, text in self.files(crate) if re.search(rf"\bfn {re.escape(parts[-1])}\b", text)]
        own = [it for it in found if it == os.path.join("crates", crate, "src", *parts[1:-1]) + ".rt"]
        return found[0] if len(found) == 1 else own[0] if own else ""


def comment(path, source):
    """What stands above a function."""
    return f"/* {path}{': ' * bool(source)}{source} */"
