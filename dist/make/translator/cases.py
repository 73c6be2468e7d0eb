#!/usr/bin/env python3
"""cases.py SMALL.ll > FEWER.ll: the module with the value of a switch in place of a phi that has just the number of each case.

The kit takes a variant apart and makes it anew, case by case: so each case sets the number that it is the case of. Cases that set
nothing else are the same after this, and the optimiser makes them one."""
import sys

import lines
from conditions import Conditions
from module import Module
from refusals import end_if_any
from text import bits, constant


class Cases:
    """The switches of a function, and on which ways the value of one is known."""

    def __init__(self, function):
        self.conditions = Conditions(function)

    def case_on_way(self, label, to, switch):
        """The number that the value of a switch is for whoever goes from a block to the next one; None if it may be several."""
        above = self.conditions.above[label]
        for at in above:
            if at != switch.label and self.conditions.from_labels[at] == [switch.label] and switch.label in above:
                return self.case(switch.lines[-1], at)
        return self.case(switch.lines[-1], to) if label == switch.label else None

    def case(self, end, label):
        """The number of the one case that leads to a label."""
        cases = [it for it, to in end.cases if to == label]
        return constant(end["type"], cases[0]) if len(cases) == 1 and end["otherwise"] != label else None

    def switch_of(self, block, phi):
        """The switch whose value a phi is, on each way to its block."""
        for label in self.conditions.above[block.label] - {block.label}:
            switch = self.conditions.by_label[label]
            end = switch.lines[-1]
            if end.kind == "switch" and end["value"][0] == "%" and all(self.is_case(phi, switch, *row, block) for row in phi.rows):
                return end
        return None

    def is_case(self, phi, switch, value, label, block):
        known = constant(phi["type"], value) if value != "poison" else None
        case = self.case_on_way(label, block.label, switch)
        return known is not None and case is not None and known == case % (1 << bits(phi["type"]))


def made_of(phi, end):
    """The line that takes the place of a phi."""
    has, wants = bits(end["type"]), bits(phi["type"])
    if has == wants:
        return f"  {phi['made']} = or {phi['type']} {end['value']}, 0"
    return f"  {phi['made']} = {'trunc' if has > wants else 'zext'} {end['type']} {end['value']} to {phi['type']}"


def main():
    written = open(sys.argv[1], encoding="latin-1").read()
    module, gone, behind = Module(written, lines.OPTIMISED), set(), {}
    end_if_any()
    for function in module.functions:
        cases = Cases(function)
        for block in cases.conditions.blocks:
            phis = [line for line in block.lines if line.kind == "phi"]
            for phi in phis:
                end = cases.switch_of(block, phi) if phi["type"][0] == "i" and len(phi.rows) > 1 else None
                if end is not None:
                    gone.add(phi.number)
                    behind.setdefault(phis[-1].number, []).append(made_of(phi, end))
    for number, line in enumerate(written.rstrip("\n").split("\n"), 1):
        for it in ([] if number in gone else [line]) + behind.get(number, []):
            print(it)


if __name__ == "__main__":
    main()
