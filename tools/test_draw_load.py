#!/usr/bin/env python3
"""Runs draw_load.py over small played texts, and looks at the pictures. What is expected is stated by hand."""
import os
import subprocess
import sys
import unittest
import xml.etree.ElementTree as Tree

TOOL = os.path.join(os.path.dirname(os.path.abspath(__file__)), "draw_load.py")
TOP = os.path.dirname(os.path.dirname(TOOL))
SVG = "{http://www.w3.org/2000/svg}"
TONE_OF = {"#e9e7e1": "outside", "#94b6d9": "held", "#c8402f": "writing", "#cbe2c2": "left"}

# Two threads of one core; thread 1 comes first and thread 0 last. A second load finds nothing; a third is dropped while
# thread 1 is offline and comes late.
PLAYED = """\
command 1 boot
up 0 rev 0x000000b4
up 1 rev 0x000000b4
answer done
command 2 load
offer core 0 entry 0 len 64 rev 0x000000f0
1 enter
0 enter
1 arrive
0 arrive
0 go
0 inner
0 inner
0 begin 0
1 inner
0 wrote 0 0x000000f0
0 inner
0 report 0 updated
0 free 1
0 leave updated
1 inner
1 inner
1 leave ok
cpu 0 updated
cpu 1 ok
core 0 rev 0x000000f0
answer done
command 3 load
answer not-found
command 4 offline 1
answer done
command 5 load-force
offer core 0 entry 0 len 64 rev 0x000000f4 safe
0 enter
0 kick 1
0 drop-kick
1 enter
0 inner
0 free 1
0 leave timeout
1 arrive
1 inner
1 leave offline
cpu 0 timeout
cpu 1 offline
core 0 rev 0x000000f0
answer offline-silent 0
"""


def drawn(text, *words):
    done = subprocess.run([sys.executable, TOOL, *words], input=text, capture_output=True, text=True)
    return done.returncode, done.stdout, done.stderr


class Pictures(unittest.TestCase):
    def picture(self, *words):
        status, text, said = drawn(PLAYED, *words)
        self.assertEqual((status, said), (0, ""))
        return Tree.fromstring(text)

    def lanes(self, picture, steps):
        """Of each lane, by its height, the tones with the steps between which they stand."""
        lanes, tones = {}, [rect for rect in picture.iter(SVG + "rect") if rect.find(SVG + "title") is not None]
        left = min(float(rect.get("x")) for rect in tones)
        right = max(float(rect.get("x")) + float(rect.get("width")) for rect in tones)
        for rect in tones:
            begin = (float(rect.get("x")) - left) * steps / (right - left)
            end = begin + float(rect.get("width")) * steps / (right - left)
            tone = TONE_OF[rect.get("fill")], round(begin, 1), round(end, 1)
            lanes.setdefault(float(rect.get("y")), []).append(tone)
        return [lanes[y] for y in sorted(lanes)]

    def words(self, picture):
        return [text.text for text in picture.iter(SVG + "text")]

    def test_a_load_that_goes_on(self):
        picture = self.picture()
        self.assertEqual(self.lanes(picture, 17), [
            [("outside", 0, 1.5), ("held", 1.5, 7.5), ("writing", 7.5, 11.5), ("held", 11.5, 13.5), ("left", 13.5, 17)],
            [("outside", 0, 0.5), ("held", 0.5, 16.5), ("left", 16.5, 17)]])
        words = self.words(picture)
        for text in ("load: done", "go, decided by cpu 0", "cpu 0", "cpu 1", "updated", "ok", "begins to write",
                     "reports", "is freed", "held while its core is written"):
            self.assertEqual(words.count(text), 1, text)
        for text in ("is kicked", "halts in the handler", "an NMI waits"):
            self.assertNotIn(text, words)
        strips = [rect for rect in picture.iter(SVG + "rect") if rect.get("fill") == "#c8402f" and not len(rect)
                  and float(rect.get("width")) > 16]
        self.assertEqual(len(strips), 1)

    def test_a_dropped_load_with_an_offline_thread(self):
        picture = self.picture("--load", "3")
        self.assertEqual(self.lanes(picture, 10), [
            [("outside", 0, 0.5), ("held", 0.5, 6.5), ("left", 6.5, 10)],
            [("outside", 0, 3.5), ("held", 3.5, 9.5), ("left", 9.5, 10)]])
        words = self.words(picture)
        for text in ("load-force: offline-silent 0", "dropped by cpu 0, which gave up on the kicked", "cpu 0",
                     "offline  cpu 1", "timeout", "offline", "is kicked", "is freed"):
            self.assertEqual(words.count(text), 1, text)
        self.assertNotIn("begins to write", words)

    def test_a_halted_thread_stays_held(self):
        text = PLAYED[:PLAYED.index("1 inner\n")] + "1 halt\n0 wrote 0 0x000000f0\ncpu 0 unfinished\ncpu 1 halted\n"
        status, picture, _ = drawn(text)
        self.assertEqual(status, 0)
        lanes = self.lanes(Tree.fromstring(picture), 10)
        self.assertEqual(lanes[0][-1], ("writing", 7.5, 10))
        self.assertEqual(lanes[1], [("outside", 0, 0.5), ("held", 0.5, 10)])
        self.assertIn("halts in the handler", picture)

    def test_what_is_not_drawn(self):
        self.assertEqual(drawn(PLAYED, "--load", "2"), (1, "", "load 2 has no steps: not-found\n"))
        self.assertEqual(drawn(PLAYED, "--load", "4"), (1, "", "the text has no load 4: it has 3\n"))
        self.assertEqual(drawn("error topology line 2 word\n"), (1, "", "the text has no load with steps\n"))
        self.assertEqual(drawn(PLAYED, "--load", "x")[0], 2)

    def test_the_pictures_of_the_documents(self):
        for name in ("first-load", "dropped-load"):
            with open(os.path.join(TOP, "docs", name + ".svg"), encoding="utf-8") as file:
                self.assertEqual(drawn("", os.path.join(TOP, "examples", name + ".txt")), (0, file.read(), ""))

    def test_many_threads(self):
        items = "".join(f"{t} enter\n" for t in range(64)) + "".join(f"cpu {t} unfinished\n" for t in range(64))
        status, text, _ = drawn("command 1 load\noffer core 0 entry 0 len 64 rev 0x000000f0\n" + items)
        picture = Tree.fromstring(text)
        self.assertEqual((status, len(self.lanes(picture, 64))), (0, 64))
        self.assertLess(int(picture.get("height")), 1000)


if __name__ == "__main__":
    unittest.main()
