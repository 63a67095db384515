#!/usr/bin/python3
"""Tests of graph_to_dot.py: what it reads, what it writes, and what it refuses in one line."""

import contextlib
import io
import os
import shutil
import tempfile
import unittest

import graph_to_dot

TWO_PATCHES = """graph 1
plan init tasks 2 slots 2 reads 0
slot 0 new u material 0 level 0 patch 0 version 0 uses 2 kept 1
slot 1 new u material 0 level 0 patch 1 version 0 uses 2 kept 1
task 0 start level 0 material 0 patch 0 reads writes 0 after
task 1 start level 0 material 0 patch 1 reads writes 1 after
plan timestep tasks 2 slots 4 reads 4
slot 0 old u material 0 level 0 patch 0 version 0 uses 2 kept 0
slot 1 old u material 0 level 0 patch 1 version 0 uses 2 kept 0
slot 2 new u material 0 level 0 patch 0 version 0 uses 2 kept 1
slot 3 new u material 0 level 0 patch 1 version 0 uses 2 kept 1
task 0 shift level 0 material 0 patch 0 reads 0 1 writes 2 after
task 1 shift level 0 material 0 patch 1 reads 0 1 writes 3 after
end
"""

REDUCED = """graph 1
plan init tasks 2 slots 3 reads 1
slot 0 part low material 0 level 0 patch 0 version 0 uses 2 kept 0
slot 1 number low uses 1 kept 0
slot 2 oldnumber low uses 1 kept 0
task 0 reads level 0 material 0 patch 0 reads writes 0 after
task 1 combine low reads 0 writes 1 after 0
end
"""


def said(arguments):
    out, err = io.StringIO(), io.StringIO()
    with contextlib.redirect_stdout(out), contextlib.redirect_stderr(err):
        status = graph_to_dot.main(arguments)
    return status, out.getvalue(), err.getvalue()


class Reading(unittest.TestCase):
    def test_two_patches(self):
        init, timestep = graph_to_dot.read_plans(TWO_PATCHES)
        self.assertEqual((init.name, timestep.name), ("init", "timestep"))
        self.assertEqual([task.reads for task in timestep.tasks], [[0, 1], [0, 1]])
        self.assertEqual([task.writes for task in timestep.tasks], [[2], [3]])
        lines = list(graph_to_dot.dot_lines(timestep))
        self.assertEqual(lines[0], "digraph timestep {")
        self.assertIn('  slot2 [shape=ellipse, label="2: new u\\nmaterial 0 level 0 patch 0 version 0\\nuses 2, kept"];', lines)
        self.assertIn('  task1 [shape=box, label="1: shift\\nlevel 0 material 0 patch 1"];', lines)
        self.assertEqual(sum("->" in line for line in lines), 6)

    def test_a_task_named_reads_and_a_reduction(self):
        (plan,) = graph_to_dot.read_plans(REDUCED)
        self.assertEqual(plan.tasks[0].label, "0: reads\\nlevel 0 material 0 patch 0")
        self.assertEqual((plan.tasks[1].label, plan.tasks[1].after), ("1: combine low", [0]))
        self.assertEqual(plan.slots[1], "1: number low\\nuses 1")

    def test_what_is_no_listing(self):
        for text, why in [
            ("", "line 1: a listing begins with 'graph 1'"),
            (TWO_PATCHES.replace("end\n", ""), "line 14: this is no line of a listing"),
            (TWO_PATCHES.replace("slot 1 new", "slot 2 new"), "line 4: number 2 stands where 1 should"),
            (TWO_PATCHES.replace("patch 1 version 0 uses 2 kept 1\ntask", "patch 1 uses 2 kept 1\ntask", 1),
             "line 4: here should stand material, level, patch, version, uses, kept, each with its value"),
            (TWO_PATCHES.replace("slot 0 old", "slot 0 odd"), "line 8: 'odd' is no kind of slot"),
            (TWO_PATCHES.replace("writes 2 ", "writes x "), "line 12: 'x' is no number"),
        ]:
            with self.assertRaises(graph_to_dot.Unreadable) as refused:
                graph_to_dot.read_plans(text)
            self.assertEqual(str(refused.exception), why)

    def test_one_line_says_why(self):
        with tempfile.TemporaryDirectory() as room:
            listing = os.path.join(room, "listing")
            with open(listing, "w", encoding="ascii") as file:
                file.write(REDUCED)
            status, out, err = said([listing])
            self.assertEqual((status, out, err), (1, "", "graph_to_dot: the listing has no plan timestep\n"))
            status, out, err = said([listing, "--list", "init"])
            self.assertEqual((status, err), (0, ""))
            self.assertTrue(out.startswith("digraph init {\n") and out.endswith("}\n"))


@unittest.skipUnless(shutil.which("dot"), "dot is not there")
class Drawing(unittest.TestCase):
    def test_picture(self):
        with tempfile.TemporaryDirectory() as room:
            listing, picture = os.path.join(room, "listing"), os.path.join(room, "graph.svg")
            with open(listing, "w", encoding="ascii") as file:
                file.write(TWO_PATCHES)
            self.assertEqual(said([listing, "--picture", picture]), (0, "", ""))
            with open(picture, encoding="utf-8") as file:
                self.assertIn("</svg>", file.read())


if __name__ == "__main__":
    unittest.main()
