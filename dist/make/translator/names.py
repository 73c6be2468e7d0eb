"""Names of C for those of a module."""
import re

# What a local or a function may not be called.
TAKEN = ("switch case default goto return if else for while do int short long char signed unsigned void struct union enum static const "
         "inline register auto break continue sizeof typedef extern volatile float double restrict trap never memset memmove memcpy").split()


class Names:
    """Names that are all different, each made of what it names."""

    def __init__(self, taken=()):
        self.taken, self.named = {*TAKEN, *taken}, {}

    def of(self, it, wanted=None):
        """The name of C for it. Endings that an inliner adds, as .i and .i5, are left out."""
        if it not in self.named:
            name = re.sub(r"\.(?:i[0-9]*|sroa|ph|insert)(?=[.\"]|$)", "", of_function(wanted or it))
            name = re.sub(r"[^A-Za-z0-9]+", "_", name).strip("_")
            self.named[it] = self.new(name if name[:1].isalpha() else f"v{name}")
        return self.named[it]

    def new(self, wanted):
        name, count = wanted, 2
        while name in self.taken:
            name, count = f"{wanted}_{count}", count + 1
        self.taken.add(name)
        return name


def of_function(path):
    """A function's name, without the numbers and the sums that tell two of the same name apart."""
    return re.sub(r"<?#[0-9a-f]{16}>?|<?\b[0-9]+'", "_", path)
