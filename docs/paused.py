#!/usr/bin/env python3
"""paused.py: prints the picture of a primary that was only paused as an SVG. Its events, and what goes out, are those of the test
`chance::paused`, which has them of the proved world and of a plain one."""
from picture import LEFT, LEGEND, STYLE

NARROW, APART, TOP = 34, 46, 60
ROWS = ["term 1's primary", "term 2's primary", "keeper 0", "keeper 1", "keeper 2", "term 1's gate", "term 2's gate"]
KEEPER, GATE = 1, 4  # the row of keeper k is KEEPER + k + 1, that of term t's gate is GATE + t
EVENTS = [
    ("says", 1, 7), ("holds", 0, (0, 1)), ("ack", 0, 1), ("holds", 1, (0, 1)), ("ack", 1, 1), ("pause", 1),
    ("grant", 2, (1, 2)), ("back", 1), ("release", 1, (7,)),
    ("says", 1, 8), ("holds", 0, (3,)), ("ack", 0, 1), ("holds", 1, (3,)), ("fenced", 1, 1), ("release", 1, ()),
    ("says", 2, 9), ("holds", 1, (2, 4)), ("ack", 1, 2), ("holds", 2, (0, 1, 2, 4)), ("ack", 2, 2), ("release", 2, (7, 9)),
    ("ack", 0, 1), ("release", 1, ()),
]


class Picture:
    def __init__(self):
        self.x, self.marks, self.since, self.left = LEFT + 30, [], {1: LEFT + 20}, []

    def y(self, row):
        return TOP + APART * row

    def line(self, x, y, to_x, to_y, kind, arrow=False):
        end = f' marker-end="url(#arrow-{kind})"' if arrow else ""
        self.marks.append(f'<line class="{kind}" x1="{x}" y1="{y}" x2="{to_x}" y2="{to_y}"{end}/>')

    def text(self, x, y, words, kind="small", anchor="middle"):
        self.marks.append(f'<text class="{kind}" x="{x}" y="{y}" text-anchor="{anchor}">{words}</text>')

    def dot(self, y, kind):
        self.marks.append(f'<circle class="{kind}" cx="{self.x}" cy="{y}" r="4"/>')

    def cross(self, y):
        for up in (-6, 6):
            self.line(self.x - 6, y - up, self.x + 6, y + up, "ends")

    def live(self, term):
        self.line(self.since.pop(term), self.y(term - 1), self.x, self.y(term - 1), "life")

    def says(self, term, word):
        y = self.y(term - 1)
        self.line(self.x - 9, y, self.x + 9, y, "steps")
        self.text(self.x, y - 10, f"says {word}")

    def holds(self, keeper, frames):
        y = self.y(KEEPER + keeper + 1)
        self.dot(y, "frame")
        self.text(self.x, y + 16, " ".join(map(str, frames)))

    def ack(self, keeper, term):
        y = self.y(KEEPER + keeper + 1)
        self.dot(y, "ack")
        self.line(self.x, y + 5, self.x, self.y(GATE + term) - 6, "ack", True)

    def fenced(self, keeper, _term):
        y = self.y(KEEPER + keeper + 1)
        self.cross(y)
        self.text(self.x, y + 18, "fenced")

    def pause(self, term):
        self.live(term)
        self.text(self.x + 4, self.y(term - 1) - 10, "paused", "small", "start")

    def back(self, term):
        self.since[term] = self.x

    def grant(self, term, keepers):
        for keeper in keepers:
            self.dot(self.y(KEEPER + keeper + 1), "grant")
        self.line(self.x, self.y(KEEPER + max(keepers) + 1), self.x, self.y(term - 1) + 6, "grant", True)
        self.text(self.x + 6, self.y(term - 1) - 8, f"grant {term}", "grant", "start")
        self.since[term] = self.x

    def release(self, term, words):
        y = self.y(GATE + term)
        self.dot(y, "out")
        self.text(self.x, y + 20, " ".join(map(str, words)) or "none", "out" if words else "small")

    def whole(self):
        end = self.x + NARROW
        for term in list(self.since):
            self.x = end
            self.live(term)
        under = []
        for row, name in enumerate(ROWS):
            under.append(f'<text class="name" x="{LEFT + 12}" y="{self.y(row) + 4}" text-anchor="end">{name}</text>')
            if row >= 2:
                under.append(f'<line class="row" x1="{LEFT + 20}" y1="{self.y(row)}" x2="{end}" y2="{self.y(row)}"/>')
        return end + 20, self.y(len(ROWS)) + 20, under + self.marks


def draw():
    picture = Picture()
    for kind, *words in EVENTS:
        getattr(picture, kind)(*words)
        picture.x += NARROW
    width, height, marks = picture.whole()
    x = LEFT
    words_of = dict(LEGEND, out="a look of the gate; the words that go out", ends="not acknowledged")
    del words_of["note"]  # no primary of that world notes what went out
    for kind, words in words_of.items():
        marks.append(f'<line class="{kind}" x1="{x}" y1="{height - 14}" x2="{x + 18}" y2="{height - 14}"/>')
        marks.append(f'<text class="small" x="{x + 24}" y="{height - 10}">{words}</text>')
        x += 46 + 5.6 * len(words)
    print(f'<svg xmlns="http://www.w3.org/2000/svg" width="{width:.0f}" height="{height}" viewBox="0 0 {width:.0f} {height}">')
    print(f"<style>{STYLE}</style>")
    print("<defs>")
    for kind in ("frame", "ack", "grant", "out"):
        print(f'<marker id="arrow-{kind}" viewBox="0 0 8 8" refX="7" refY="4" markerWidth="6" markerHeight="6" orient="auto">')
        print(f'<path class="{kind}" style="stroke: none" d="M0 0 L8 4 L0 8 z"/></marker>')
    print("</defs>")
    print('<rect width="100%" height="100%" fill="white"/>')
    print("\n".join(marks))
    print("</svg>")


if __name__ == "__main__":
    draw()
