#!/usr/bin/python3
"""Turns a listing of task graphs into a Graphviz file, and into a picture where `dot` is there.

Boxes are detailed tasks, ellipses are slots: an arrow leads from a slot to each task that reads it, and from a task to each
slot that it writes. docs/task-graph.md says what stands in a listing.
"""

import argparse
import shutil
import subprocess
import sys


class Unreadable(Exception):
    """A listing that is none, or that has not what was asked for. The text says why, in one line."""


class Task:
    """A detailed task: what it is called, and the numbers of its slots and of the tasks that it waits for."""

    def __init__(self, label, reads, writes, after):
        self.label, self.reads, self.writes, self.after = label, reads, writes, after


class Plan:
    """The task graph of a list."""

    def __init__(self, name, tasks, slots, reads):
        self.name, self.task_count, self.slot_count, self.read_count = name, tasks, slots, reads
        self.slots, self.tasks = [], []

    def is_whole(self):
        return len(self.slots) == self.slot_count and len(self.tasks) == self.task_count


def number(word, line):
    if not (word.isascii() and word.isdigit()):
        raise Unreadable(f"line {line}: {word!r} is no number")
    return int(word)


def pairs(words, wanted, line):
    """The values of words that stand behind these in turn, as in `material 0 level 1`."""
    if len(words) != 2 * len(wanted) or words[0::2] != wanted:
        raise Unreadable(f"line {line}: here should stand {', '.join(wanted)}, each with its value")
    return words[1::2]


def read_plan(words, line):
    name, *rest = words
    counts = [number(word, line) for word in pairs(rest, ["tasks", "slots", "reads"], line)]
    return Plan(name, *counts)


def read_slot(words, line):
    """What a slot is called: its kind and its name, and below it where it lies, its version, and how often it is used."""
    place, kind, name, *rest = words
    if kind in ("old", "new", "part"):
        wanted = ["material", "level", "patch", "version", "uses", "kept"]
    elif kind in ("number", "oldnumber"):
        wanted = ["uses", "kept"]
    else:
        raise Unreadable(f"line {line}: {kind!r} is no kind of slot")
    values = [number(word, line) for word in pairs(rest, wanted, line)]
    told = " ".join(f"{word} {value}" for word, value in zip(wanted[:-2], values))
    uses = f"uses {values[-2]}" + (", kept" if values[-1] else "")
    return number(place, line), "\\n".join(part for part in (f"{place}: {kind} {name}", told, uses) if part)


def cut(words, line):
    """The words before `reads`, and the numbers behind `reads`, `writes` and `after`."""
    try:
        reads = words.index("reads", 3)
        writes = words.index("writes", reads)
        after = words.index("after", writes)
    except ValueError:
        raise Unreadable(f"line {line}: a task has 'reads', 'writes' and 'after'") from None
    lists = [words[reads + 1 : writes], words[writes + 1 : after], words[after + 1 :]]
    return words[:reads], [[number(word, line) for word in part] for part in lists]


def read_task(words, line):
    head, lists = cut(words, line)
    place, *names = head
    if len(names) == 2 and names[0] == "combine":
        label = f"{place}: combine {names[1]}"
    else:
        where = pairs(names[1:], ["level", "material", "patch"], line)
        label = f"{place}: {names[0]}\\nlevel {where[0]} material {where[1]} patch {where[2]}"
    return number(place, line), Task(label, *lists)


def put(things, place, thing, line):
    if place != len(things):
        raise Unreadable(f"line {line}: number {place} stands where {len(things)} should")
    things.append(thing)


def read_plans(text):
    """The plans of a listing, in order."""
    lines = text.split("\n")
    if lines[0] != "graph 1":
        raise Unreadable("line 1: a listing begins with 'graph 1'")
    plans = []
    for line, words in ((at, text.split(" ")) for at, text in enumerate(lines[1:], 2)):
        if plans and not plans[-1].is_whole():
            if words[0] == "slot" and len(words) > 3 and not plans[-1].tasks:
                put(plans[-1].slots, *read_slot(words[1:], line), line)
            elif words[0] == "task" and len(words) > 3:
                put(plans[-1].tasks, *read_task(words[1:], line), line)
            else:
                raise Unreadable(f"line {line}: this is no line of a plan")
        elif words == ["end"]:
            return plans
        elif words[0] == "plan" and len(words) > 1:
            plans.append(read_plan(words[1:], line))
        else:
            raise Unreadable(f"line {line}: this is no line of a listing")
    raise Unreadable("the listing has no 'end'")


def quoted(text):
    return '"' + text.replace('"', '\\"') + '"'


def dot_lines(plan):
    yield f"digraph {plan.name} {{"
    yield "  rankdir=LR;"
    for place, label in enumerate(plan.slots):
        yield f"  slot{place} [shape=ellipse, label={quoted(label)}];"
    for place, task in enumerate(plan.tasks):
        yield f"  task{place} [shape=box, label={quoted(task.label)}];"
        for slot in task.reads:
            yield f"  slot{slot} -> task{place};"
        for slot in task.writes:
            yield f"  task{place} -> slot{slot};"
    yield "}"


def plan_of(plans, name):
    for plan in plans:
        if plan.name == name:
            return plan
    raise Unreadable(f"the listing has no plan {name}")


def draw(dot, picture):
    if shutil.which("dot") is None:
        raise Unreadable("dot is missing: install Graphviz, on Debian the package graphviz")
    kind = picture.rsplit(".", 1)[-1]
    done = subprocess.run(["dot", f"-T{kind}", "-o", picture], input=dot, text=True, capture_output=True)
    if done.returncode != 0:
        raise Unreadable(f"dot: {done.stderr.strip().splitlines()[-1] if done.stderr.strip() else 'it failed'}")


def main(arguments):
    parser = argparse.ArgumentParser(description=__doc__.split("\n")[0])
    parser.add_argument("listing", help="the listing's file, or - for standard input")
    parser.add_argument("--list", default="timestep", choices=["init", "timestep"], help="the list of tasks")
    parser.add_argument("--picture", help="a file to draw, as graph.svg; without it the Graphviz text is written to standard output")
    given = parser.parse_args(arguments)
    try:
        if given.listing == "-":
            text = sys.stdin.read()
        else:
            with open(given.listing, encoding="ascii") as file:
                text = file.read()
        dot = "\n".join(dot_lines(plan_of(read_plans(text), given.list))) + "\n"
        if given.picture is None:
            sys.stdout.write(dot)
        else:
            draw(dot, given.picture)
    except (OSError, UnicodeError, Unreadable) as why:
        print(f"graph_to_dot: {why}", file=sys.stderr)
        return 1
    return 0


if __name__ == "__main__":
    sys.exit(main(sys.argv[1:]))
