"""Whether a function is whole: what it names is there, and each block and each phi says all that it has to."""
from refusals import refuse


def check(function):
    every = [line for block in function.blocks for line in block.lines]
    made = [name for _, name in function.parameters] + [line["made"] for line in every if "made" in line.words]
    labels = [block.label for block in function.blocks]
    if not labels or len({*made}) != len(made) or len({*labels}) != len(labels):
        refuse(function.number, "a function without a block, or with two of one name", function.name)
    for line in every:
        for name in {*line.names()} - {*made}:
            refuse(line.number, f"{name} is made nowhere", line.written)
        for label in {*line.goes_to()} - {*labels}:
            refuse(line.number, f"{label} is nowhere", line.written)
    for block in function.blocks:
        check_block(function, block)


def check_block(function, block):
    """The last line of a block says what comes next, and no other one does. Each phi there has a row for it."""
    if not block.lines or not block.lines[-1].is_end():
        refuse(block.number, "a block without an end", block.label)
        return
    for line in block.lines[:-1]:
        if line.is_end():
            refuse(line.number, "a block that ends within", line.written)
    for label in {*block.lines[-1].goes_to()}:
        for line in function.lines_of(label):
            if line.kind == "phi" and block.label not in [it for _, it in line.rows]:
                refuse(line.number, f"no row for {block.label}", line.written)
