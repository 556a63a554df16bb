"""Draws lanes with boxes and values along them, and arrows between these, as SVG. It knows nothing of studies: bin/explain and
bin/chart say what stands where, and which line is drawn how.

A row holds one box or one value, or two that an arrow joins; only the first holds the starts of all lanes. An arrow leaves
sideways, runs down or up in the gutter beside its target's lane and enters sideways, or goes straight down its lane: so it
crosses lanes and other arrows, and no box or value.
"""

from collections import defaultdict
from dataclasses import dataclass, field
from xml.sax.saxutils import escape

FONT = 'font-family="DejaVu Sans, Arial, sans-serif"'
CHARACTER = 6.9  # pixels, of 11 points
LEFT, TRACK, AIR, HEAD = 46, 6, 13, 20  # pixels: the margin, between tracks, beside lanes, of the lanes' names
BOX, VALUE, ENTRY, ENDS = 22, 15, 5, 10  # heights: of a box, of a value; of an entry into a box, and of its ends
INK, FAINT, ALARM = "#222222", "#e4e4e4", "#c00000"


@dataclass(eq=False)
class Node:
    """A box or a value."""

    lane: int
    row: int
    label: str
    box: bool = False
    marked: bool = False
    apart: bool = False  # not on the lane's line
    begins: bool = False  # the lane's line begins here anew
    broken: bool = False  # it breaks off above this
    number: str = ""  # at the row's left
    note: str = ""  # at its right, marked
    aside: str = ""  # at its right, not marked
    hint: str = ""


@dataclass(eq=False)
class Arrow:
    source: Node
    target: Node
    style: str
    marked: bool = False
    pale: bool = False
    hint: str = ""


@dataclass
class Style:
    colour: str
    dash: str
    meaning: str


@dataclass
class Picture:
    title: str
    lanes: list  # their names
    styles: dict
    nodes: list = field(default_factory=list)
    arrows: list = field(default_factory=list)
    remarks: list = field(default_factory=list)  # below the title


def text(x, y, words, size=11, anchor="start", fill=INK, more=""):
    return f'<text x="{x:.1f}" y="{y:.1f}" font-size="{size}" text-anchor="{anchor}" fill="{fill}" {FONT}{more}>{escape(words)}</text>'


def line(x1, y1, x2, y2, colour, width=1.0):
    return f'<line x1="{x1:.1f}" y1="{y1:.1f}" x2="{x2:.1f}" y2="{y2:.1f}" stroke="{colour}" stroke-width="{width}"/>'


def hinted(hint):
    return f"<title>{escape(hint)}</title>" if hint else ""


def rounded(points, radius=4):
    """A line along the points, with round corners."""
    parts = ["M{:.1f} {:.1f}".format(*points[0])]
    for (x0, y0), (x1, y1), (x2, y2) in zip(points, points[1:], points[2:]):
        before, after = abs(x1 - x0) + abs(y1 - y0), abs(x2 - x1) + abs(y2 - y1)
        r = min(radius, before / 2, after / 2)
        if r < 0.5:
            parts.append(f"L{x1:.1f} {y1:.1f}")
            continue
        back = (x1 - r * (x1 - x0) / before, y1 - r * (y1 - y0) / before)
        on = (x1 + r * (x2 - x1) / after, y1 + r * (y2 - y1) / after)
        parts.append(f"L{back[0]:.1f} {back[1]:.1f}Q{x1:.1f} {y1:.1f} {on[0]:.1f} {on[1]:.1f}")
    parts.append("L{:.1f} {:.1f}".format(*points[-1]))
    return "".join(parts)


class Drawing:
    def __init__(self, picture):
        self.picture = picture
        self.along = defaultdict(list)  # by lane: its nodes from top to bottom
        for node in sorted(picture.nodes, key=lambda node: node.row):
            self.along[node.lane].append(node)
        self.entries = defaultdict(list)  # by node and side: the arrows that enter there
        self.straight, self.routed = [], []
        for arrow in picture.arrows:
            (self.straight if self.is_straight(arrow) else self.routed).append(arrow)
        for arrow in self.routed:
            self.entries[arrow.target, self.side(arrow)].append(arrow)
        self.place_rows()
        self.lay_tracks()
        self.place_lanes()

    # ---- what goes where

    def is_straight(self, arrow):
        """Down the lane to the next node."""
        nodes = self.along[arrow.source.lane]
        if arrow.source.lane != arrow.target.lane:
            return False
        return nodes.index(arrow.target) == nodes.index(arrow.source) + 1

    def side(self, arrow):
        """The side on which it enters: -1 is left."""
        return -1 if arrow.source.lane < arrow.target.lane else 1

    def place_rows(self):
        heights = defaultdict(lambda: VALUE)
        for node in self.picture.nodes:
            most = max(len(self.entries[node, side]) for side in (-1, 1))
            heights[node.row] = max(heights[node.row], BOX if node.box else VALUE, most * ENTRY + ENDS if most > 1 else 0)
        self.height, self.top = heights, {}
        self.begin = 48 + (26 if self.picture.arrows else 0) + 18 * len(self.picture.remarks)
        y = self.begin + HEAD
        boxes = {node.row for node in self.picture.nodes if node.box}
        broken = {node.row for node in self.picture.nodes if node.broken}
        for row in sorted(heights):
            y += 11 if row in boxes else 22 if row in broken else 3
            self.top[row] = y
            y += heights[row]
        self.bottom = y + 10

    def middle(self, node):
        return self.top[node.row] + self.height[node.row] / 2

    def leaves_at(self, arrow):
        """Where it leaves its source: a box near the lower edge, since others enter above."""
        node = arrow.source
        return self.top[node.row] + self.height[node.row] - 4 if node.box else self.middle(node)

    def lay_tracks(self):
        """Arrows of one source and style into one lane share a track. The shortest is next to the lane."""
        buses = defaultdict(list)
        for arrow in self.routed:
            buses[arrow.target.lane, self.side(arrow), arrow.source, arrow.style, arrow.pale].append(arrow)
        spans = []
        for (lane, side, *_), arrows in buses.items():
            ends = [self.leaves_at(arrow) for arrow in arrows] + [self.middle(arrow.target) for arrow in arrows]
            spans.append((max(ends) - min(ends), min(ends), max(ends), lane, side, arrows))
        taken = defaultdict(list)  # by lane and side: of each track what is taken
        self.track = {}
        for _, first, last, lane, side, arrows in sorted(spans, key=lambda span: span[:5]):
            tracks = taken[lane, side]
            free = (n for n, spans in enumerate(tracks) if all(last + 8 < start or end + 8 < first for start, end in spans))
            number = next(free, len(tracks))
            if number == len(tracks):
                tracks.append([])
            tracks[number].append((first, last))
            for arrow in arrows:
                self.track[arrow] = number
        self.tracks = {place: len(tracks) for place, tracks in taken.items()}
        for (node, side), arrows in self.entries.items():
            above = sorted((a for a in arrows if self.leaves_at(a) <= self.middle(node)), key=lambda a: self.track[a])
            below = sorted((a for a in arrows if self.leaves_at(a) > self.middle(node)), key=lambda a: -self.track[a])
            arrows[:] = above + below

    def place_lanes(self):
        self.centre, self.half = [], []
        x = LEFT
        for lane, name in enumerate(self.picture.lanes):
            widest = max([len(name) * 1.05] + [len(node.label) for node in self.along[lane]])
            width = max(30, widest * CHARACTER + 14)
            x += self.gutter(lane, -1) + self.gutter(lane - 1, 1) + AIR
            self.centre.append(x + width / 2)
            self.half.append(width / 2)
            x += width
        self.edge = x + self.gutter(len(self.picture.lanes) - 1, 1) + AIR
        notes = max((len(node.note or node.aside) for node in self.picture.nodes), default=0)
        self.width = round(self.edge + notes * CHARACTER + 30)

    def gutter(self, lane, side):
        tracks = self.tracks.get((lane, side), 0)
        return tracks * TRACK + 9 if tracks else 0

    def on_track(self, arrow):
        lane, side = arrow.target.lane, self.side(arrow)
        return self.centre[lane] + side * (self.half[lane] + 12 + self.track[arrow] * TRACK)

    def half_width(self, node):
        return self.half[node.lane] if node.box else min(self.half[node.lane], len(node.label) * CHARACTER / 2 + 5)

    # ---- the parts

    def arrow(self, arrow):
        style = self.picture.styles[arrow.style]
        if arrow in self.straight:
            x = self.centre[arrow.source.lane]
            tail = self.top[arrow.source.row] + self.height[arrow.source.row]
            points = [(x, tail), (x, self.top[arrow.target.row])]
        else:
            side, track = self.side(arrow), self.on_track(arrow)
            out = 1 if track > self.centre[arrow.source.lane] else -1
            start = self.centre[arrow.source.lane] + out * self.half_width(arrow.source)
            end = self.centre[arrow.target.lane] + side * self.half_width(arrow.target)
            entered = self.entries[arrow.target, side]
            room = self.height[arrow.target.row] - (ENDS if len(entered) > 1 else 0)
            y = self.top[arrow.target.row] + (room * (entered.index(arrow) + 0.5) / len(entered)) + (2 if len(entered) > 1 else 0)
            tail = self.leaves_at(arrow)
            points = [(start, tail), (track, tail), (track, y), (end, y)]
        return self.stroke(rounded(points), style, arrow.style, arrow.marked, arrow.pale, arrow.hint)

    def stroke(self, path, style, name, marked=False, pale=False, hint=""):
        colour = ALARM if marked else style.colour
        head = f"{name}-{'marked' if marked else 'pale' if pale else 'plain'}"
        width, faded = (2.0, "") if marked else (1.0, ' stroke-opacity="0.45"') if pale else (1.5, "")
        dash = f' stroke-dasharray="{style.dash}"' if style.dash else ""
        return f'<path d="{path}" fill="none" stroke="{colour}" stroke-width="{width}"{faded}{dash} marker-end="url(#{head})">{hinted(hint)}</path>'

    def node(self, node):
        x, half, y, height = self.centre[node.lane], self.half_width(node), self.top[node.row], self.height[node.row]
        if not node.box:
            y, height = self.middle(node) - VALUE / 2, VALUE
        colour = ALARM if node.marked else "#3c5a78" if node.box else "#9a9a9a"
        fill = ("#fdeaea" if node.marked else "#e8f0f8") if node.box else "#ffffff"
        dash = ' stroke-dasharray="3 2"' if node.apart else ""
        shape = f'<rect x="{x - half:.1f}" y="{y:.1f}" width="{2 * half:.1f}" height="{height:.1f}" rx="{3 if node.box else VALUE / 2}"'
        yield f'{shape} fill="{fill}" stroke="{colour}" stroke-width="{1.6 if node.marked else 1}"{dash}>{hinted(node.hint)}</rect>'
        yield text(x, y + height / 2 + 4, node.label, 11 if node.box else 10.5, "middle", ALARM if node.marked else INK)
        if node.broken:
            yield line(x, y - 4, x, y, ALARM, 2)
            yield line(x - 5, y - 16, x + 5, y - 6, ALARM, 2)
            yield line(x - 5, y - 6, x + 5, y - 16, ALARM, 2)
        if node.number:
            yield text(LEFT - 8, y + height / 2 + 4, node.number, 11, "end", "#777777")
            if self.edge > 1200:
                yield text(self.edge + 4, y + height / 2 + 4, node.number, 11, "start", "#777777")
        if node.note or node.aside:
            yield text(self.edge + 8, y + height / 2 + 4, node.note or node.aside, 11, fill=ALARM if node.note else INK)

    def ground(self):
        """The lanes with their names, a faint line at every row with a box, and each lane's line."""
        last = self.bottom - 6
        for lane, name in enumerate(self.picture.lanes):
            x, half = self.centre[lane], self.half[lane]
            y = self.begin
            yield f'<rect x="{x - half - 3:.1f}" y="{y - 2}" width="{2 * half + 6:.1f}" height="{last - y + 2:.1f}" fill="#f7f7f7"/>'
            yield text(x, y + 13, name, 11.5, "middle", more=' font-weight="bold"')
        for node in self.picture.nodes:
            if node.number:
                yield line(LEFT - 4, self.middle(node), self.edge, self.middle(node), FAINT)
        for nodes in self.along.values():
            for one, other in zip(nodes, nodes[1:]):
                if not (one.apart or other.apart or other.begins):
                    yield line(self.centre[one.lane], self.middle(one), self.centre[one.lane], self.middle(other), "#bbbbbb")

    def heads(self):
        yield "<defs>"
        for name, style in self.picture.styles.items():
            for kind, colour, faded in (("plain", style.colour, ""), ("pale", style.colour, ' fill-opacity="0.45"'), ("marked", ALARM, "")):
                yield (
                    f'<marker id="{name}-{kind}" viewBox="0 0 8 8" refX="8" refY="4" markerWidth="8" markerHeight="8" '
                    f'markerUnits="userSpaceOnUse" orient="auto"><path d="M0 0.6L8 4L0 7.4Z" fill="{colour}"{faded}/></marker>'
                )
        yield "</defs>"

    def legend(self):
        """Of the styles that are used, what they mean."""
        used = {(arrow.style, arrow.marked) for arrow in self.picture.arrows}
        x = 20
        for name, style in self.picture.styles.items():
            for marked in (False, True):
                if (name, marked) in used:
                    yield self.stroke(f"M{x} 54L{x + 34} 54", style, name, marked)
                    yield text(x + 40, 58, style.meaning)
                    x += round(54 + len(style.meaning) * CHARACTER * 0.95)
        self.width = max(self.width, x + 10)

    def svg(self):
        picture = self.picture
        legend = list(self.legend())
        said = [picture.title + "  "] + picture.remarks
        self.width = round(max([self.width] + [40 + len(words) * (8.9 if words == said[0] else CHARACTER) for words in said]))
        height = round(self.bottom + 10 if picture.nodes else 60)
        parts = [f'<svg xmlns="http://www.w3.org/2000/svg" width="{self.width}" height="{height}" viewBox="0 0 {self.width} {height}">']
        parts.append(f'<rect width="{self.width}" height="{height}" fill="#ffffff"/>')
        parts += self.heads()
        parts.append(text(20, 28, picture.title, 15, more=' font-weight="bold"'))
        parts += legend
        parts += [text(20, 80 + 18 * n, words, 11, fill="#555555") for n, words in enumerate(picture.remarks)]
        parts += self.ground()
        parts += [self.arrow(arrow) for arrow in sorted(picture.arrows, key=lambda arrow: (arrow.marked, not arrow.pale))]
        for node in picture.nodes:
            parts += self.node(node)
        return "\n".join(parts) + "\n</svg>\n"


def drawn(picture):
    return Drawing(picture).svg()
