#!/usr/bin/python3
"""Draws a field of a dump as a picture: a plane of constant z, at one step or at all of them as one sheet.

Finer levels are drawn over coarser ones. A dump does not say how much finer a level is: --ratios says it, 2 for each
level if nothing else is given. docs/model.md says what stands in a dump. Needs matplotlib, of the system's packages.
"""

import argparse
import math
import sys


class Unreadable(Exception):
    """A dump that is none, or that has not what was asked for. The text says why, in one line."""


class Field:
    """The numbers of one field: by z, then y, then x, from the low corner of its span on."""

    def __init__(self, name, material, level, low, high):
        self.name, self.material, self.level = name, material, level
        self.low, self.high = low, high
        self.rows = []

    def width(self):
        return self.high[0] - self.low[0]

    def height(self):
        return self.high[1] - self.low[1]

    def row_count(self):
        return self.height() * (self.high[2] - self.low[2])

    def plane(self, z):
        """The rows at z by ascending y, or None where the span has no such z."""
        if not self.low[2] <= z < self.high[2]:
            return None
        first = (z - self.low[2]) * self.height()
        return self.rows[first : first + self.height()]


def whole(word, line):
    digits = word[1:] if word.startswith("-") else word
    if not (digits.isascii() and digits.isdigit()):
        raise Unreadable(f"line {line}: {word!r} is no whole number")
    return int(word)


def read_header(words, line):
    if len(words) != 10:
        raise Unreadable(f"line {line}: a field has a name, a material, a level and six bounds")
    numbers = [whole(word, line) for word in words[2:]]
    field = Field(words[1], numbers[0], numbers[1], numbers[2:5], numbers[5:8])
    if any(high <= low for low, high in zip(field.low, field.high)):
        raise Unreadable(f"line {line}: the span of the field has no indexes")
    return field


def read_row(field, text, line):
    row = [whole(word, line) for word in text.split(" ")]
    if len(row) != field.width():
        raise Unreadable(f"line {line}: the row has {len(row)} numbers, and the field is {field.width()} wide")
    field.rows.append(row)


def read_steps(text):
    """The steps of a dump in order, each with its number and its fields."""
    lines = text.split("\n")
    if lines[0] != "dump 1":
        raise Unreadable("line 1: a dump begins with 'dump 1'")
    steps, field = [], None
    for line, words in ((at, text.split(" ")) for at, text in enumerate(lines[1:], 2)):
        if field is not None and len(field.rows) < field.row_count():
            read_row(field, " ".join(words), line)
        elif words == ["end"]:
            return steps
        elif words[0] == "step" and len(words) == 2:
            steps.append((whole(words[1], line), []))
        elif words[0] == "field" and steps:
            field = read_header(words, line)
            steps[-1][1].append(field)
        elif words[0] == "number" and steps and len(words) == 3:
            whole(words[2], line)
        elif words[0] != "#":
            raise Unreadable(f"line {line}: this is no line of a dump")
    raise Unreadable("the dump has no 'end'")


def wanted_fields(steps, name, material, step):
    """For each step its number and its fields of this name and material, coarsest first; steps without any are left out."""
    chosen = []
    for number, fields in steps:
        if step is None or step == number:
            mine = [f for f in fields if f.name == name and f.material == material]
            if mine:
                chosen.append((number, sorted(mine, key=lambda f: f.level)))
    if not chosen:
        when = "" if step is None else f" at step {step}"
        raise Unreadable(f"the dump has no field {name} on material {material}{when}")
    return chosen


def scales(ratios, levels):
    """How many cells of each level lie along a cell of level 0."""
    found = [1]
    for level in range(1, levels):
        found.append(found[-1] * (ratios[level - 1] if level <= len(ratios) else 2))
    return found


def planes(fields, z, sizes):
    """What to draw: for each field that has the plane its rows, and where they lie in cells of level 0."""
    for field in fields:
        size = sizes[field.level]
        rows = field.plane(z * size)
        if rows is not None:
            (left, low, _), (right, high, _) = field.low, field.high
            yield rows, (left / size, right / size, low / size, high / size), field.level


def draw(chosen, z, ratios, title, out):
    try:
        import matplotlib
    except ImportError:
        raise Unreadable("matplotlib is missing: install the system's package, on Debian python3-matplotlib")
    matplotlib.use("Agg")
    from matplotlib import pyplot

    levels = 1 + max(field.level for _, fields in chosen for field in fields)
    sheets = [(number, list(planes(fields, z, scales(ratios, levels)))) for number, fields in chosen]
    numbers = [n for _, drawn in sheets for rows, _, _ in drawn for row in rows for n in row]
    if not numbers:
        raise Unreadable(f"no field has the plane z = {z}")
    columns = math.ceil(math.sqrt(len(sheets)))
    count = math.ceil(len(sheets) / columns)
    figure, axes = pyplot.subplots(count, columns, squeeze=False, figsize=(3.2 * columns + 1, 3 * count), layout="constrained")
    for axis in axes.flat:
        axis.set_visible(False)
    for axis, (number, drawn) in zip(axes.flat, sheets):
        axis.set_visible(True)
        axis.set_title(f"step {number}")
        for rows, extent, level in drawn:
            image = axis.imshow(
                [[float(n) for n in row] for row in rows],
                origin="lower", extent=extent, vmin=float(min(numbers)), vmax=float(max(numbers)), zorder=level,
            )
        edges = [extent for _, extent, _ in drawn]
        axis.set_xlim(min(e[0] for e in edges), max(e[1] for e in edges))
        axis.set_ylim(min(e[2] for e in edges), max(e[3] for e in edges))
    figure.suptitle(title)
    figure.colorbar(image, ax=list(axes.flat))
    figure.savefig(out, dpi=100)


def main(arguments):
    parser = argparse.ArgumentParser(description=__doc__.split("\n")[0])
    parser.add_argument("dump", help="the dump's file, or - for standard input")
    parser.add_argument("picture", help="the file to write, as heat.png")
    parser.add_argument("--name", required=True, help="the variable")
    parser.add_argument("--material", type=int, default=0)
    parser.add_argument("--step", type=int, help="one step; without it all steps of the dump are drawn as one sheet")
    parser.add_argument("--plane", type=int, default=0, help="the z of the plane, on level 0")
    parser.add_argument("--ratios", type=int, nargs="*", default=[], help="the refinement ratios of levels 1, 2, ..")
    given = parser.parse_args(arguments)
    try:
        if given.dump == "-":
            text = sys.stdin.read()
        else:
            with open(given.dump, encoding="ascii") as file:
                text = file.read()
        chosen = wanted_fields(read_steps(text), given.name, given.material, given.step)
        title = f"{given.name}, material {given.material}, z = {given.plane}"
        draw(chosen, given.plane, given.ratios, title, given.picture)
    except (OSError, UnicodeError, Unreadable) as why:
        print(f"draw_dump: {why}", file=sys.stderr)
        return 1
    return 0


if __name__ == "__main__":
    sys.exit(main(sys.argv[1:]))
