#!/usr/bin/python3
"""Tests of draw_dump.py: what it reads, what it refuses in one line, and that it draws where matplotlib is there."""

import contextlib
import importlib.util
import io
import os
import sys
import tempfile
import unittest
import unittest.mock

import draw_dump

GOOD = """dump 1
step 0
field u 0 0 0 0 0 2 1 1
7 -7
field u 0 1 0 0 0 2 2 2
1 2
3 4
5 6
7 8
number low -106
step 1
field u 0 0 0 0 0 2 1 1
9 9
# rows 3 numbers 12 sum 300
end
"""


def said(arguments):
    told = io.StringIO()
    with contextlib.redirect_stderr(told):
        status = draw_dump.main(arguments)
    return status, told.getvalue()


class Reading(unittest.TestCase):
    def test_fields_and_planes(self):
        steps = draw_dump.read_steps(GOOD)
        self.assertEqual([number for number, _ in steps], [0, 1])
        coarse, fine = steps[0][1]
        self.assertEqual(coarse.plane(0), [[7, -7]])
        self.assertEqual(coarse.plane(1), None)
        self.assertEqual(fine.plane(1), [[5, 6], [7, 8]])

    def test_levels_lie_over_each_other(self):
        fields = draw_dump.read_steps(GOOD)[0][1]
        drawn = list(draw_dump.planes(fields, 0, draw_dump.scales([2], 2)))
        self.assertEqual(drawn[0], ([[7, -7]], (0, 2, 0, 1), 0))
        self.assertEqual(drawn[1], ([[1, 2], [3, 4]], (0, 1, 0, 1), 1))

    def test_what_is_no_dump(self):
        for text, why in [
            ("", "line 1: a dump begins with 'dump 1'"),
            (GOOD.replace("7 -7", "7 x"), "line 4: 'x' is no whole number"),
            (GOOD.replace("7 -7", "7 -7 0"), "line 4: the row has 3 numbers, and the field is 2 wide"),
            (GOOD.replace("0 0 0 2 1 1\n7", "0 0 0 0 1 1\n7"), "line 3: the span of the field has no indexes"),
            (GOOD.replace("end\n", ""), "line 15: this is no line of a dump"),
            (GOOD.replace("step 0\n", ""), "line 2: this is no line of a dump"),
        ]:
            with self.assertRaises(draw_dump.Unreadable) as refused:
                draw_dump.read_steps(text)
            self.assertEqual(str(refused.exception), why)

    def test_one_line_says_why(self):
        with tempfile.TemporaryDirectory() as room:
            dump = os.path.join(room, "dump")
            with open(dump, "w", encoding="ascii") as file:
                file.write(GOOD)
            picture = os.path.join(room, "picture.png")
            status, told = said([dump, picture, "--name", "v"])
            self.assertEqual((status, told), (1, "draw_dump: the dump has no field v on material 0\n"))
            status, told = said([os.path.join(room, "none"), picture, "--name", "u"])
            self.assertEqual((status, told.count("\n")), (1, 1))
            self.assertFalse(os.path.exists(picture))

    def test_where_matplotlib_is_missing(self):
        with tempfile.TemporaryDirectory() as room:
            dump = os.path.join(room, "dump")
            with open(dump, "w", encoding="ascii") as file:
                file.write(GOOD)
            with unittest.mock.patch.dict(sys.modules, {"matplotlib": None}):
                status, told = said([dump, os.path.join(room, "picture.png"), "--name", "u"])
            why = "matplotlib is missing: install the system's package, on Debian python3-matplotlib"
            self.assertEqual((status, told), (1, f"draw_dump: {why}\n"))


@unittest.skipUnless(importlib.util.find_spec("matplotlib"), "matplotlib is not there")
class Drawing(unittest.TestCase):
    def test_a_sheet_and_a_step(self):
        with tempfile.TemporaryDirectory() as room:
            dump = os.path.join(room, "dump")
            with open(dump, "w", encoding="ascii") as file:
                file.write(GOOD)
            for extra in [[], ["--step", "0", "--ratios", "2"]]:
                picture = os.path.join(room, f"picture{len(extra)}.png")
                self.assertEqual(said([dump, picture, "--name", "u"] + extra), (0, ""))
                with open(picture, "rb") as file:
                    self.assertEqual(file.read(8), b"\x89PNG\r\n\x1a\n")


if __name__ == "__main__":
    unittest.main()
