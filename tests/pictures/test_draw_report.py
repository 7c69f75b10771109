#!/usr/bin/env python3
"""Pictures of reports, drawn by hand and compared: `tests/pictures/test_draw_report.py`."""
import subprocess
import sys
import unittest
from pathlib import Path

SCRIPT = Path(__file__).resolve().parents[2] / "examples" / "draw_report.py"

SLOW = """\
0 1 put 7 done 0 3 slow
1 1 take value 7 1 2 slow
calls 2 fast 0 slow 2 exhausted 0 pending 0 overtaken 0
"""
SLOW_PICTURE = """\
tick    0  1                2  3
seat 0  |=====put 7: done======|
seat 1     |=take: value 7==|
calls 2 fast 0 slow 2 exhausted 0 pending 0 overtaken 0
"""
PENDING = """\
0 1 set 5 9 yes 0 1 fast
0 2 get 5 pending 2 - fast
calls 2 fast 2 slow 0 exhausted 0 pending 1
"""
PENDING_PICTURE = """\
tick    0               1  2
seat 0  |-set 5 9: yes--|  |-get 5: pending-->
calls 2 fast 2 slow 0 exhausted 0 pending 1
"""
NOTHING = "calls 0 fast 0 slow 0 exhausted 0 pending 0 overtaken 0\n"


def draw(text, *words):
    """Status and standard output for a report on standard input."""
    made = subprocess.run([sys.executable, SCRIPT, *words], input=text, capture_output=True, text=True)
    return made.returncode, made.stdout


class Pictures(unittest.TestCase):
    def test_text(self):
        self.assertEqual(draw(SLOW), (0, SLOW_PICTURE))

    def test_pending_calls_have_no_end(self):
        self.assertEqual(draw(PENDING), (0, PENDING_PICTURE))

    def test_no_call(self):
        self.assertEqual(draw(NOTHING), (0, "tick\n" + NOTHING))

    def test_svg_marks_slow_calls(self):
        status, picture = draw(SLOW, "--svg")
        self.assertEqual(status, 0)
        self.assertTrue(picture.startswith("<svg ") and picture.endswith("</svg>\n"))
        self.assertEqual(picture.count(">slow<"), 2)
        self.assertEqual(draw(PENDING, "--svg")[1].count(">slow<"), 0)

    def test_other_texts_are_no_reports(self):
        for text in ("", "nwf: usage\n", "0 1 put 7\n" + NOTHING, SLOW.replace("slow\n", "quick\n"), SLOW.replace("put", "pot")):
            self.assertEqual(draw(text), (1, ""), text)


if __name__ == "__main__":
    unittest.main()
