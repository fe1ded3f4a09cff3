#!/usr/bin/env python3
"""picture.py PROGRAM IMAGE EVENTS KEEPERS NEED: prints the picture of a list of events as an SVG.

Time goes to the right; the primary, each keeper and the gate are lines. What goes out at a release is asked of PROGRAM, the
built workbench: it is what `failover` prints of the lines up to that release, less what it prints of those up to the last.
"""
import subprocess
import sys
import tempfile

WIDE, NARROW, LEFT = 58, 21, 96
PRIMARY, FIRST_KEEPER, APART = 74, 150, 52


def released(program, image, lines, keepers, need):
    """The outputs that go out while these events happen, as (term, hart, number)."""
    with tempfile.NamedTemporaryFile("w", suffix=".events") as events:
        events.write("".join(line + "\n" for line in lines))
        events.flush()
        words = [program, "failover", image, events.name, keepers, need]
        told = subprocess.run(words, capture_output=True, text=True, check=True).stdout
    rows = [line.split() for line in told.splitlines() if line.startswith("term ")]
    return [(int(row[1]), int(row[3]), int(row[5])) for row in rows]


def moments(lines):
    """The events, each with the number of its line; steps and inputs that follow one another are one."""
    found = []
    for number, line in enumerate(lines, 1):
        words = line.split()
        led = words[0] in ("step", "timer", "word")
        if led and found and found[-1][0] == "led":
            found[-1][1].append(words)
            found[-1][2] = number
        else:
            found.append(["led", [words], number] if led else [words[0], words[1:], number])
    return found


class Picture:
    def __init__(self, harts, keepers):
        self.keepers, self.marks, self.notes = keepers, [], []
        self.gate = FIRST_KEEPER + keepers * APART + 14
        self.x = LEFT + 12
        self.sent = [self.x]
        self.unsealed = [0] * harts
        self.term, self.since = 1, LEFT
        self.lost = {}

    def keeper(self, number):
        return FIRST_KEEPER + number * APART

    def line(self, x, y, to_x, to_y, kind, arrow=False):
        end = f' marker-end="url(#arrow-{kind})"' if arrow else ""
        self.marks.append(f'<line class="{kind}" x1="{x}" y1="{y}" x2="{to_x}" y2="{to_y}"{end}/>')

    def text(self, x, y, words, kind="small", anchor="middle"):
        self.marks.append(f'<text class="{kind}" x="{x}" y="{y}" text-anchor="{anchor}">{words}</text>')

    def dot(self, y, kind):
        self.marks.append(f'<circle class="{kind}" cx="{self.x}" cy="{y}" r="4"/>')

    def cross(self, y):
        for up in (-6, 6):
            self.line(self.x - 6, y - up, self.x + 6, y + up, "ends")

    def led(self, words):
        steps = [sum(word[0] == "step" and int(word[1]) == hart for word in words) for hart in range(len(self.unsealed))]
        self.unsealed = [old + new for old, new in zip(self.unsealed, steps)]
        self.line(self.x - WIDE / 2 + 8, PRIMARY, self.x + WIDE / 2 - 8, PRIMARY, "steps")
        self.text(self.x, PRIMARY - 22, "steps")
        self.text(self.x, PRIMARY - 10, " ".join(map(str, steps)))

    def seal(self):
        pieces = [hart for hart, steps in enumerate(self.unsealed) if steps]
        self.sent += [self.x] * len(pieces)
        self.unsealed = [0] * len(self.unsealed)
        self.dot(PRIMARY, "frame")

    def deliver(self, keeper, frame):
        y = self.keeper(keeper)
        self.line(self.sent[frame], PRIMARY + 5, self.x, y - 6, "frame", True)
        self.dot(y, "frame")
        self.text(self.x, y + 16, frame)

    def join(self, keeper, other):
        y, from_y = self.keeper(keeper), self.keeper(other)
        self.line(self.x, from_y, self.x, y + (6 if y < from_y else -6), "frame", True)

    def ack(self, keeper):
        self.dot(self.keeper(keeper), "ack")
        self.line(self.x, self.keeper(keeper) + 5, self.x, self.gate - 6, "ack", True)

    def release(self, outputs):
        self.dot(self.gate, "out")
        for row, (_, hart, number) in enumerate(outputs):
            self.text(self.x, self.gate + 40 + 13 * row, f"{hart}/{number}", "out")
        if outputs:
            self.line(self.x, self.gate + 5, self.x, self.gate + 26, "out", True)
            self.notes.append(f'<circle class="note" cx="{self.x}" cy="{PRIMARY}" r="4"/>')
        else:
            self.text(self.x, self.gate + 20, "none")

    def stop(self):
        self.line(self.since, PRIMARY, self.x, PRIMARY, "life")
        self.text((self.since + self.x) / 2, 24, f"term {self.term}", "name")
        self.cross(PRIMARY)
        self.since = None

    def lose(self, keeper):
        self.cross(self.keeper(keeper))
        self.lost[keeper] = self.x

    def grant(self, term, keepers):
        self.term, self.since = term, self.x
        self.unsealed = [0] * len(self.unsealed)
        self.sent.append(self.x)
        for keeper in sorted(set(keepers)):
            self.dot(self.keeper(keeper), "grant")
        low = max(self.keeper(keeper) for keeper in keepers)
        self.line(self.x, low, self.x, PRIMARY + 6, "grant", True)
        self.text(self.x + 6, PRIMARY - 10, f"grant {term}", "grant", "start")

    def whole(self):
        end = self.x + NARROW
        if self.since is not None:
            self.line(self.since, PRIMARY, end, PRIMARY, "life")
            self.text((self.since + end) / 2, 24, f"term {self.term}", "name")
        rows = [("primary", PRIMARY)] + [(f"keeper {k}", self.keeper(k)) for k in range(self.keepers)] + [("gate", self.gate)]
        under = []
        for name, y in rows:
            under.append(f'<text class="name" x="{LEFT - 16}" y="{y + 4}" text-anchor="end">{name}</text>')
            if name != "primary":
                lost = self.lost.get(rows.index((name, y)) - 1, end)
                under.append(f'<line class="row" x1="{LEFT}" y1="{y}" x2="{lost}" y2="{y}"/>')
        under.append(f'<text class="name" x="{LEFT - 16}" y="{self.gate + 42}" text-anchor="end">went out</text>')
        return end + 20, self.gate + 104, under + self.marks + self.notes


STYLE = """
text { font-family: sans-serif; fill: #222 } .name { font-size: 13px } .small { font-size: 10px; fill: #555 }
line { stroke-width: 1.2 } .row { stroke: #bbb } .life { stroke: #1f4e9c; stroke-width: 2.5 } .steps { stroke: #1f4e9c; stroke-width: 7 }
.frame { stroke: #1f4e9c; fill: #1f4e9c } .ack { stroke: #b36b00; fill: #b36b00 } line.ack { stroke-dasharray: 3 2 } .ends { stroke: #c00; stroke-width: 2.5 }
.note { stroke: #1b7a34; fill: white; stroke-width: 2 }
.grant { stroke: #7a1fa2; fill: #7a1fa2; stroke-width: 2 } .out { stroke: #1b7a34; fill: #1b7a34 } text.out, text.grant { stroke: none; font-size: 11px }
"""
LEGEND = [
    ("frame", "a frame comes"),
    ("ack", "acknowledged"),
    ("grant", "goes live"),
    ("out", "a look of the gate; HART/NUMBER goes out"),
    ("note", "noted in the log"),
    ("ends", "ends"),
]


def draw(program, image, events, keepers, need):
    lines = open(events, encoding="ascii").read().splitlines()
    harts = int(open(image, encoding="ascii").readline().split()[1])
    picture, gone = Picture(harts, int(keepers)), 0
    for kind, words, number in moments(lines):
        picture.x += WIDE if kind == "led" else NARROW
        if kind == "led":
            picture.led(words)
            picture.x += (WIDE - NARROW) / 2
        elif kind == "release":
            outputs = released(program, image, lines[:number], keepers, need)
            picture.release(outputs[gone:])
            gone = len(outputs)
        elif kind == "grant":
            picture.grant(int(words[0]), [int(word) for word in words[1:]])
        else:
            getattr(picture, kind)(*[int(word) for word in words])
    width, height, marks = picture.whole()
    x = LEFT
    for kind, words in LEGEND:
        marks.append(f'<line class="{kind}" x1="{x}" y1="{height - 14}" x2="{x + 18}" y2="{height - 14}"/>')
        marks.append(f'<text class="small" x="{x + 24}" y="{height - 10}">{words}</text>')
        x += 46 + 6 * len(words)
    print(f'<svg xmlns="http://www.w3.org/2000/svg" width="{width:.0f}" height="{height}" viewBox="0 0 {width:.0f} {height}">')
    print(f"<style>{STYLE}</style>")
    print("<defs>")
    for kind in ("frame", "ack", "grant", "out"):
        print(f'<marker id="arrow-{kind}" viewBox="0 0 8 8" refX="7" refY="4" markerWidth="6" markerHeight="6" orient="auto">')
        print(f'<path class="{kind}" style="stroke: none" d="M0 0 L8 4 L0 8 z"/></marker>')
    print("</defs>")
    print('<rect width="100%" height="100%" fill="white"/>')
    print("\n".join(marks))
    print("</svg>")


if __name__ == "__main__":
    if len(sys.argv) != 6:
        sys.exit(__doc__)
    draw(*sys.argv[1:])
