#!/usr/bin/env python3
"""Draws a load that `ucode play` printed, as an SVG picture: a lane for each thread, from the first step to the last.

    ucode play TOPOLOGY SCRIPT | tools/draw_load.py > load.svg
    tools/draw_load.py --load 2 played.txt load.svg

Four tones say where a thread is: outside, held in the handler, writing, left. A strip in a lane says that the thread's
core is being written by another. Marks are what a thread does, and the decision is one line across all lanes. Each
printed step is as wide as the others. The load is the first that has steps, or the N-th load command of the text. The
status is 0 where a picture was written, 1 where the text has no such load or a file is not to be read or written, 2 for
faulty words.
"""
import argparse
import re
import sys
from html import escape

TONES = {"outside": "#e9e7e1", "held": "#94b6d9", "writing": "#c8402f", "left": "#cbe2c2"}
INK, FAINT, ALARM = "#22262b", "#6b7280", "#b3261e"
FONT = "'DejaVu Sans', 'Liberation Sans', Helvetica, Arial, sans-serif"
DECISIONS = {"go": "go, decided by cpu {}", "drop": "dropped by cpu {}, which waited too long",
             "drop-kick": "dropped by cpu {}, which gave up on the kicked"}
FAILED = {"error", "timeout", "halted", "unfinished"}

# What is marked: the first word of an item, the shape, the colour, whether the mark stands in the lane of the thread
# that the item names instead of the item's own, and what the legend says.
MARKS = {
    "begin": ("triangle", INK, False, "begins to write"),
    "report": ("diamond", INK, False, "reports"),
    "kick": ("bolt", INK, True, "is kicked"),
    "withdraw": ("cross", FAINT, True, "its kick is taken back"),
    "free": ("bar", INK, True, "is freed"),
    "halt": ("cross", ALARM, False, "halts in the handler"),
    "latched": ("ring", INK, False, "an NMI waits"),
    "ordinary": ("dot", FAINT, False, "runs ordinary code"),
}


class Load:
    """A load command of a played text: its items, each a thread and words, and the lines around them."""

    def __init__(self, heading):
        self.heading = heading
        self.offers, self.items, self.results, self.revisions, self.answer = [], [], {}, [], ""

    def take(self, line):
        words = line.split()
        if words[0] == "offer":
            self.offers.append(words)
        elif words[0] == "cpu":
            self.results[int(words[1])] = words[2]
        elif words[0] == "core":
            self.revisions.append((int(words[1]), words[3]))
        elif words[0] == "answer":
            self.answer = " ".join(words[1:])
        elif words[0].isdecimal():
            self.items.append((int(words[0]), words[1:]))

    def threads(self):
        named = {int(words[1]) for _, words in self.items if words[0] in ("kick", "free", "withdraw")}
        return sorted(named | set(self.results) | {thread for thread, _ in self.items})

    def kicked(self):
        return {int(words[1]) for _, words in self.items if words[0] == "kick"}


def loads_of(text):
    """The loads of a played text, in their order. Lines that are none of a session are passed over."""
    loads, current = [], None
    for line in text.splitlines():
        if re.match(r"command \d+ ", line):
            current = Load(line) if re.fullmatch(r"command \d+ load(-force)?", line) else None
            loads += [current] if current else []
        elif current and re.match(r"(offer core|cpu|core|answer|\d+) \S", line):
            current.take(line)
    return loads


def stretches(load, thread):
    """The tones of a thread's lane, each with the steps between which it stands."""
    tone, since, found = "outside", 0, []
    turns = {"enter": "held", "begin": "writing", "report": "held", "leave": "left"}
    for at, (who, words) in enumerate(load.items):
        new = turns.get(words[0]) if who == thread else None
        if new and new != tone:
            found.append((tone, since, at + 0.5))
            tone, since = new, at + 0.5
    return found + [(tone, since, len(load.items))]


def writes(load):
    """For each write its primary, the steps between which it stands, and the threads that are freed after it."""
    found, open_since = {}, {}
    for at, (who, words) in enumerate(load.items):
        if words[0] == "begin":
            open_since[who] = at + 0.5
        elif words[0] == "report" and who in open_since:
            found[who] = (open_since[who], at + 0.5, [])
        elif words[0] == "free" and who in found:
            found[who][2].append(int(words[1]))
    return found


class Page:
    """The measures of a picture, and its elements as they are drawn."""

    def __init__(self, load):
        self.load, self.threads = load, load.threads()
        count, steps = len(self.threads), max(1, len(load.items))
        self.pitch = 30 if count <= 12 else 18 if count <= 32 else 12 if count <= 96 else 7
        self.bar = self.pitch - (8 if self.pitch == 30 else 4 if self.pitch == 18 else 2)
        self.label = {30: 12, 18: 11, 12: 9, 7: 9}[self.pitch]
        self.plot = min(1360, max(680, 9 * steps))
        self.unit = self.plot / steps
        self.left, self.top = 104, 92
        self.right, self.bottom = self.left + self.plot, self.top + count * self.pitch
        self.width, self.elements = self.right + 92, []
        self.lane_of = {thread: lane for lane, thread in enumerate(self.threads)}

    def x(self, at):
        return self.left + at * self.unit

    def middle(self, thread):
        return self.top + (self.lane_of[thread] + 0.5) * self.pitch

    def add(self, name, text=None, **attributes):
        shown = " ".join(f'{key.replace("_", "-")}="{round(value, 2) if isinstance(value, float) else value}"'
                         for key, value in attributes.items())
        self.elements.append(f"<{name} {shown}/>" if text is None else f"<{name} {shown}>{text}</{name}>")

    def write(self, x, y, text, size=12, fill=INK, **attributes):
        self.add("text", escape(text), x=float(x), y=float(y), font_size=size, fill=fill, **attributes)

    def mark(self, shape, x, y, size, fill):
        """A mark of a size from its middle to its edge, with a light rim so that it stands out of every tone."""
        x, y, s = round(x, 2), round(y, 2), size
        rim = {"stroke": "#ffffff", "stroke_width": 1, "paint_order": "stroke"}
        if shape == "triangle":
            self.add("path", d=f"M{x - 0.7 * s:.2f},{y - s:.2f} l{1.7 * s:.2f},{s:.2f} l{-1.7 * s:.2f},{s:.2f} z",
                     fill=fill, **rim)
        elif shape == "diamond":
            self.add("path", d=f"M{x},{y - s:.2f} l{s:.2f},{s:.2f} l{-s:.2f},{s:.2f} l{-s:.2f},{-s:.2f} z", fill=fill,
                     **rim)
        elif shape == "bolt":
            self.add("path", d=f"M{x + 0.3 * s:.2f},{y - s:.2f} l{-0.9 * s:.2f},{1.15 * s:.2f} h{0.6 * s:.2f} "
                     f"l{-0.3 * s:.2f},{0.85 * s:.2f} l{0.95 * s:.2f},{-1.15 * s:.2f} h{-0.6 * s:.2f} z", fill=fill,
                     **rim)
        elif shape == "cross":
            self.add("path", d=f"M{x - s:.2f},{y - s:.2f} L{x + s:.2f},{y + s:.2f} "
                     f"M{x - s:.2f},{y + s:.2f} L{x + s:.2f},{y - s:.2f}", stroke=fill, stroke_width=2, fill="none")
        elif shape == "bar":
            self.add("path", d=f"M{x},{y - s:.2f} V{y + s:.2f}", stroke=fill, stroke_width=1.6, fill="none")
        else:
            self.add("circle", cx=x, cy=y, r=0.6 * s, fill=fill if shape == "dot" else "none", stroke=fill,
                     stroke_width=1.4)


def draw_lanes(page):
    """The lanes with their tones, and the labels beside them: each, or as many as there is room for."""
    kicked, found = page.load.kicked(), writes(page.load)
    every = 1 if page.pitch >= 12 else 2
    for lane, thread in enumerate(page.threads):
        top = page.middle(thread) - page.bar / 2
        for tone, since, until in stretches(page.load, thread):
            page.add("rect", f"<title>cpu {thread} {tone}</title>", x=page.x(since), y=float(top),
                     width=(until - since) * page.unit, height=page.bar, fill=TONES[tone])
        for since, until, freed in found.values():
            if thread in freed:
                strip = max(2, page.bar // 6)
                page.add("rect", x=page.x(since), y=float(top + page.bar - strip), width=(until - since) * page.unit,
                         height=strip, fill=TONES["writing"])
        if lane % every == 0:
            y, name = page.middle(thread) + 0.36 * page.label, f"cpu {thread}"
            page.write(page.left - 10, y, f"offline  {name}" if thread in kicked else name, page.label,
                       text_anchor="end")
            result = page.load.results.get(thread, "")
            page.write(page.right + 10, y, result, page.label, ALARM if result in FAILED else INK)


def draw_marks(page):
    size = max(2.5, min(6.0, 0.28 * page.bar))
    for at, (who, words) in enumerate(page.load.items):
        if words[0] in MARKS:
            shape, fill, of_named, _ = MARKS[words[0]]
            thread = int(words[1]) if of_named else who
            page.mark(shape, page.x(at + 0.5), page.middle(thread), page.bar / 2 if shape == "bar" else size, fill)


def draw_decision(page):
    """The step that decides, as a line across all lanes with its name above."""
    for at, (who, words) in enumerate(page.load.items):
        if words[0] in DECISIONS:
            x, text = page.x(at + 0.5), DECISIONS[words[0]].format(who)
            half = 3.4 * len(text)
            page.add("path", d=f"M{x:.2f},{page.top - 8} V{page.bottom + 4}", stroke=INK, stroke_width=2)
            page.write(max(page.left + half, min(page.right - half, x)), page.top - 14, text, 12, INK,
                       text_anchor="middle", font_weight="bold")


def draw_heading(page):
    load = page.load
    page.write(20, 30, f"{load.heading.split(' ', 2)[2]}: {load.answer or 'no answer'}", 17, font_weight="bold")
    revisions = sorted({rev for _, rev in load.revisions})
    cores = f"{len(load.revisions)} core{'s' if len(load.revisions) != 1 else ''}"
    runs = f"{cores} at {' and '.join(revisions)}" if revisions else "no core told"
    offers = sorted({words[words.index("rev") + 1] for words in load.offers})
    page.write(20, 51, f"{load.heading.split(' load')[0]}, {len(page.threads)} threads, offered "
               f"{' and '.join(offers)}; afterwards {runs}", 12, FAINT)


def draw_axis(page):
    steps = len(page.load.items)
    gap = next(gap for gap in (5, 10, 20, 50, 100, 200, 500, 10**3, 10**4, 10**5, 10**7) if steps / gap <= 14)
    y = page.bottom + 6
    page.add("path", d=f"M{page.left},{y} H{page.right:.2f}", stroke=FAINT, stroke_width=1)
    for step in range(0, steps + 1, gap):
        page.add("path", d=f"M{page.x(step):.2f},{y} v4", stroke=FAINT, stroke_width=1)
        page.write(page.x(step), y + 16, str(step), 10, FAINT, text_anchor="middle")
    page.write(page.left - 10, y + 16, "steps", 10, FAINT, text_anchor="end")


def draw_legend(page):
    """What stands in this picture: the tones, and the marks that were made."""
    made = {words[0] for _, words in page.load.items}
    entries = [("tone", tone, tone) for tone in TONES]
    entries += [("strip", None, "held while its core is written")] * any(w[2] for w in writes(page.load).values())
    entries += [("mark", name, MARKS[name][3]) for name in MARKS if name in made]
    x, y = page.left, page.bottom + 48
    for kind, name, text in entries:
        wide = 40 + 6.1 * len(text)
        if x + wide > page.width - 12 and x > page.left:
            x, y = page.left, y + 22
        if kind == "mark":
            page.mark(MARKS[name][0], x + 8, y - 4, 5, MARKS[name][1])
        else:
            page.add("rect", x=float(x), y=y - 10, width=16, height=12, fill=TONES[name or "held"])
            if kind == "strip":
                page.add("rect", x=float(x), y=y - 1, width=16, height=3, fill=TONES["writing"])
        page.write(x + 22, y, text, 11)
        x += wide
    return y + 20


def draw(load):
    """The picture of a load, as the text of an SVG."""
    page = Page(load)
    draw_lanes(page)
    draw_marks(page)
    draw_decision(page)
    draw_heading(page)
    draw_axis(page)
    height = draw_legend(page)
    return "\n".join([
        f'<svg xmlns="http://www.w3.org/2000/svg" width="{page.width:.0f}" height="{height:.0f}" '
        f'viewBox="0 0 {page.width:.0f} {height:.0f}" font-family="{FONT}" role="img">',
        f"<title>{escape(load.heading)}, answer {escape(load.answer)}</title>",
        '<rect width="100%" height="100%" fill="#ffffff"/>', *page.elements, "</svg>", ""])


def chosen(loads, number):
    """The load that is asked for, or what to say in its place."""
    if number is None:
        with_steps = [load for load in loads if load.items]
        return (with_steps[0], None) if with_steps else (None, "the text has no load with steps")
    if not 1 <= number <= len(loads):
        return None, f"the text has no load {number}: it has {len(loads)}"
    load = loads[number - 1]
    return (load, None) if load.items else (None, f"load {number} has no steps: {load.answer or 'no answer'}")


def main():
    parser = argparse.ArgumentParser(description="Draws a load that `ucode play` printed as an SVG picture.")
    parser.add_argument("--load", type=int, metavar="N", help="the N-th load command of the text, from 1")
    parser.add_argument("played", nargs="?", default="-", help="what was printed (standard input)")
    parser.add_argument("picture", nargs="?", default="-", help="where the picture goes (standard output)")
    words = parser.parse_args()
    try:
        with open(0 if words.played == "-" else words.played, encoding="utf-8", errors="replace") as file:
            load, why = chosen(loads_of(file.read()), words.load)
        if not load:
            sys.exit(why)
        with open(1 if words.picture == "-" else words.picture, "w", encoding="utf-8") as file:
            file.write(draw(load))
    except OSError as fault:
        sys.exit(str(fault))


if __name__ == "__main__":
    main()
