#!/usr/bin/env python3
"""Draws docs/strips.svg: a line, its strips level by level, the boxes of one level, and one NEAR walk.

Run it from anywhere; it writes the picture beside itself. Tree and walk follow docs/RULES.md: a node is split at the
inner point farthest from its chord, ties to the middle and then to the lower index; NEAR dismisses a node when
gc^2 + gt^2 > D^2 * |u|^2.
"""
import pathlib

LINE = [(0, 40), (30, 62), (58, 50), (80, 84), (118, 92), (140, 70), (176, 76), (196, 44), (232, 40),
        (262, 66), (300, 58)]
ASKED, DISTANCE = (150, 102), 22
BOXED = 2  # the level whose boxes are drawn
FATES = {"visited": ("#2b6cb0", "visited, not dismissed"), "dismissed": ("#c05621", "visited and dismissed"),
         "unread": ("#718096", "never visited")}
INK, SCALE, COLUMNS, WIDE, HIGH, LEGEND = "#1a202c", 1.26, 2, 415, 158, 58


def direction(a, b):
    return (b[0] - a[0], b[1] - a[1]) if a != b else (1, 0)


def c_at(s, u, p):
    return u[0] * (p[1] - s[1]) - u[1] * (p[0] - s[0])


def t_at(s, u, p):
    return u[0] * (p[0] - s[0]) + u[1] * (p[1] - s[1])


def square(v):
    return v[0] ** 2 + v[1] ** 2


def bounds(values):
    return min(values), max(values)


class Node:
    def __init__(self, first, last, level):
        self.first, self.last, self.level, self.fate = first, last, level, "unread"
        self.s, self.u = LINE[first], direction(LINE[first], LINE[last])
        run = LINE[first:last + 1]
        self.c, self.t = bounds([self.c_of(p) for p in run]), bounds([self.t_of(p) for p in run])
        self.x, self.y = bounds([p[0] for p in run]), bounds([p[1] for p in run])
        ends = [first, self.split(), last] if last - first > 1 else []
        self.halves = [Node(a, b, level + 1) for a, b in zip(ends, ends[1:])]

    def c_of(self, p):
        return c_at(self.s, self.u, p)

    def t_of(self, p):
        return t_at(self.s, self.u, p)

    def split(self):
        def order(i):
            return -abs(self.c_of(LINE[i])), abs(2 * i - self.first - self.last), i
        return min(range(self.first + 1, self.last), key=order)

    def strip(self):
        for c, t in around(self.c, self.t):
            yield (self.s[0] + (t * self.u[0] - c * self.u[1]) / square(self.u),
                   self.s[1] + (t * self.u[1] + c * self.u[0]) / square(self.u))

    def box(self):
        return around(self.x, self.y)

    def all(self):
        return [self] + [n for half in self.halves for n in half.all()]


def around(a, b):
    return [(a[0], b[0]), (a[1], b[0]), (a[1], b[1]), (a[0], b[1])]


def shortfall(least_greatest, v):
    return max(least_greatest[0] - v, v - least_greatest[1], 0)


def within(z, a, b):
    u = direction(a, b)
    t = t_at(a, u, z)
    if 0 < t < square(u):
        return c_at(a, u, z) ** 2 <= DISTANCE ** 2 * square(u)
    return square(direction(a if t <= 0 else b, z)) <= DISTANCE ** 2


def walk(node):
    gaps = shortfall(node.c, node.c_of(ASKED)), shortfall(node.t, node.t_of(ASKED))
    node.fate = "dismissed" if square(gaps) > DISTANCE ** 2 * square(node.u) else "visited"
    if node.fate == "dismissed":
        return False
    if node.halves:
        return any(walk(half) for half in node.halves)
    return within(ASKED, LINE[node.first], LINE[node.last])


def place(p):
    return "%.1f,%.1f" % (20 + p[0] * SCALE, 32 + (124 - p[1]) * SCALE)


def shape(corners, node, flat):
    colour = FATES[node.fate][0]
    # the strip of a leaf has no width: it is drawn as a thick line
    dashes = ' stroke-dasharray="5 3"' if node.fate == "unread" else ""
    style = ' stroke-width="6" stroke-opacity="0.5"' if flat else dashes
    return '<polygon points="%s" fill="%s" fill-opacity="0.13" stroke="%s"%s/>' % (
        " ".join(map(place, corners)), colour, colour, style)


def asked():
    x, y = place(ASKED).split(",")
    rim = place((ASKED[0] - DISTANCE, ASKED[1])).split(",")[0]
    return ['<circle cx="%s" cy="%s" r="%.1f" fill="none" stroke="%s" stroke-dasharray="2 2"/>' % (
                x, y, DISTANCE * SCALE, INK),
            '<path d="M%s,%s H%s" stroke="%s"/><circle cx="%s" cy="%s" r="3" fill="%s"/>' % (x, y, rim, INK, x, y, INK),
            '<text x="%.1f" y="%.1f">z = (%d,%d), D = %d</text>' % (
                float(x) + DISTANCE * SCALE + 5, float(y) - 9, *ASKED, DISTANCE)]


def panel(index, title, shapes):
    at = (index % COLUMNS * WIDE, index // COLUMNS * HIGH)
    line = '<polyline points="%s" fill="none" stroke="%s" stroke-width="1.6"/>' % (" ".join(map(place, LINE)), INK)
    return ['<g transform="translate(%d,%d)">' % at, '<text x="12" y="20" font-weight="bold">%s</text>' % title,
            *shapes, line, *asked(), "</g>"]


def legend(nodes, top, says):
    out = ['<text x="12" y="%d" font-weight="bold">%s</text>' % (top + 18, says)]
    met = [fate for fate in FATES if any(n.fate == fate for n in nodes)]
    for k, (colour, words) in enumerate(FATES[fate] for fate in met):
        out.append('<rect x="%d" y="%d" width="14" height="14" fill="%s" fill-opacity="0.3" stroke="%s"/>' % (
            12 + 200 * k, top + 32, colour, colour))
        out.append('<text x="%d" y="%d">%s</text>' % (33 + 200 * k, top + 44, words))
    return out


def draw():
    root = Node(0, len(LINE) - 1, 0)
    answer = "YES" if walk(root) else "NO"
    nodes = root.all()
    levels = [[n for n in nodes if n.level == level] for level in range(1 + max(n.level for n in nodes))]
    panels = [("level %d: strips" % k, [shape(n.strip(), n, not n.halves) for n in level])
              for k, level in enumerate(levels)]
    boxes = [shape(n.box(), n, False) for n in levels[BOXED]]
    panels.append(("level %d: boxes, which MEET and IN ask too" % BOXED, boxes))
    top = -(-len(panels) // COLUMNS) * HIGH
    says = "NEAR: is a segment within %d of (%d,%d)? %s, after %d visits of %d rows" % (
        DISTANCE, *ASKED, answer, sum(n.fate != "unread" for n in nodes), len(nodes))
    size = (WIDE * COLUMNS, top + LEGEND)
    return "\n".join([
        '<svg xmlns="http://www.w3.org/2000/svg" width="%d" height="%d" viewBox="0 0 %d %d"' % (size + size),
        '     font-family="sans-serif" font-size="13" fill="%s" role="img" aria-labelledby="title desc">' % INK,
        '<title id="title">A strip tree and one NEAR walk</title>',
        '<desc id="desc">A line of %d points, its strips level by level, the boxes of level %d. %s.</desc>' % (
            len(LINE), BOXED, says),
        '<rect width="100%" height="100%" fill="white"/>',
        *[text for k, (title, shapes) in enumerate(panels) for text in panel(k, title, shapes)],
        *legend(nodes, top, says), "</svg>", ""])


if __name__ == "__main__":
    pathlib.Path(__file__).with_name("strips.svg").write_text(draw())
