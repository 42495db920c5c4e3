"""Figures of trees: boxes with lines, as the elements of an SVG picture."""

from __future__ import annotations

from bisect import bisect_left
from collections.abc import Iterable, Iterator, Sequence
from html import escape
from itertools import chain
from unicodedata import combining, east_asian_width

from .language import counted, printed_record
from .trees import Image, Node, fields_of

SIGNS = {"=": "row", "+": "put", "-": "del", "~": "upsert"}
LEAST_LETTERS, MOST_LETTERS = 18, 30  # of a line of a box
LETTER, LINE, GAP, BELOW = 6.65, 16, 14, 44  # the width of a letter, the height of a line, and the space beside and below a box
MOST_TOUCHED = 500  # letters of a cut line; the whole line is shown when the pointer is over it
STYLE = """
text { font: 11px "DejaVu Sans Mono", Menlo, Consolas, monospace; fill: #222; white-space: pre; }
.title { font: bold 14px sans-serif; } .head { font-weight: bold; } .more { font-style: italic; fill: #666; }
.node { stroke: #444; } .inner .node { fill: #eef2f8; } .leaf .node { fill: #f6f3ea; } .left-out .node { fill: #fff; stroke-dasharray: 4 3; }
.put { fill: #17703a; } .del { fill: #b3261e; } .upsert { fill: #8a5a00; } .pivot { fill: #1f4fa3; text-anchor: middle; }
.edge { stroke: #888; fill: none; } .ground { fill: #fff; }
"""


# ---- lines ----


class Line:
    """A line of a box, or a pivot: its kind, its sign or nothing, its text, and whether it is new since the image before."""

    def __init__(self, kind: str, text: str, sign: str = "", is_new: bool = False) -> None:
        self.kind, self.text, self.is_new = kind, one_line(text), is_new
        self.sign = f"{sign} " if sign else ""

    def width(self) -> int:
        return width_of(self.sign + self.text)


def one_line(text: str) -> str:
    """A text in one line of letters that can be seen."""
    return "".join(letter if letter.isprintable() else "↵" if letter == "\n" else "·" for letter in text)


def letter_width(letter: str) -> int:
    """The width of a letter, in letters: two for an emoji or a Chinese character, none for an accent."""
    return 0 if combining(letter) else 2 if east_asian_width(letter) in "WF" else 1


def width_of(text: str) -> int:
    return len(text) if text.isascii() else sum(map(letter_width, text))


def beginning(text: str, room: int) -> str:
    """As much of a text's beginning as fits."""
    while width_of(text[:room]) > room:
        text = text[: len(text[:room]) - 1]
    return text[:room]


def text_within(text: str, room: int, apart: int = 0) -> str:
    """A text that fits, cut so that its letter at `apart`, where it begins to differ from others, is still shown."""
    if width_of(text) <= room:
        return text
    if width_of(text[: apart + 1]) < room:
        return beginning(text, room - 1) + "…"
    begin = beginning(text, room // 4)
    left = room - width_of(begin) - 1
    start = max(len(begin), apart - room // 4)
    while start > len(begin) and width_of(text[start - 1 :]) <= left:
        start -= 1
    rest = text[start:]
    return begin + "…" + (rest if width_of(rest) <= left else beginning(rest, left - 1) + "…")


class Differences:
    """Where each text of a figure begins to differ from the others that are most like it."""

    def __init__(self, texts: Iterable[str]) -> None:
        self.texts = sorted(set(texts))

    def place(self, text: str) -> int:
        at = bisect_left(self.texts, text)
        neighbours = self.texts[max(0, at - 1) : at] + self.texts[at + 1 : at + 2]
        return max((common_length(text, other) for other in neighbours), default=0)


def common_length(text: str, other: str) -> int:
    """How many letters two texts have in common at their beginnings."""
    pairs = zip(text, other)
    return next((place for place, (one, two) in enumerate(pairs) if one != two), min(len(text), len(other)))


# ---- boxes ----


class Box:
    """What is drawn of a node, or of nodes that are left out: its lines, the boxes below it, and the pivots between these."""

    def __init__(self, kind: str, lines: list[Line], below: Iterable[Box] = (), pivots: Iterable[Line] = (), is_changed: bool = False) -> None:
        self.kind, self.lines, self.below, self.pivots, self.is_changed = kind, lines, list(below), list(pivots), is_changed
        self.columns: int = sum(box.columns for box in self.below) or 1

    def height(self) -> int:
        return LINE * len(self.lines) + 8

    def boxes(self) -> Iterator[Box]:
        yield self
        for box in self.below:
            yield from box.boxes()

    def all_lines(self) -> Iterator[Line]:
        return chain.from_iterable(chain(box.lines, box.pivots) for box in self.boxes())


class Drawing:
    """The boxes of one image, within that many columns, each with that many lines."""

    def __init__(self, image: Image, columns: int, lines: int) -> None:
        self.key_columns, self.lines = image.key_columns, lines
        self.is_index = image.is_index()
        self.root = self.box(image.root, columns)
        self.differences = Differences(line.text for line in self.root.all_lines())

    def letters(self) -> int:
        """The width of a box in letters, so that its lines are cut as little as possible."""
        return max(LEAST_LETTERS, min(MOST_LETTERS, max(line.width() for line in self.root.all_lines())))

    def key(self, key: str) -> str:
        """A key as the values that it codes, where it is known how."""
        values = self.key_columns.values_once(key)
        if values is None:
            return key
        if self.is_index:
            return " ".join(map(word_of, values))
        return printed_record([value.encode() for value in values]).decode()

    def item(self, sign: str, key: str, text: str) -> str:
        """The text of a row, an entry or a message: a row is its record, and an entry its key, an arrow and what is included."""
        if sign not in "=+":
            return f"{self.key(key)} {text}" if text else self.key(key)
        values = self.key_columns.values_once(key)
        if values is None:
            return f"{key} {text}"
        if not self.is_index:
            return text
        return f"{self.key(key)} → {' '.join(map(word_of, fields_of(text)))}" if text else self.key(key)

    def own_lines(self, node: Node) -> list[Line]:
        """The first line of a box, its rows or messages, and how many of them are left out."""
        one, many = self.name_of_items(node)
        lines = [Line("head", f"{'leaf' if node.is_leaf else 'inner'}, {counted(len(node.items), one, many)}")]
        for place, (sign, key, text) in enumerate(node.items[: self.lines]):
            lines.append(Line(SIGNS[sign], self.item(sign, key, text), "" if sign == "=" else sign, place in node.new_items))
        if len(node.items) > self.lines:
            left = len(node.items) - self.lines
            lines.append(Line("more", f"{left:,} more {one if left == 1 else many}", is_new=any(place >= self.lines for place in node.new_items)))
        return lines

    def name_of_items(self, node: Node) -> tuple[str, str]:
        if not node.is_leaf:
            return "message", "messages"
        return ("entry", "entries") if self.is_index else ("row", "rows")

    def left_out(self, nodes: Sequence[Node]) -> Box:
        """The box that counts nodes and what is below them, or that of a leaf if it is not larger."""
        if len(nodes) == 1 and nodes[0].is_leaf:
            return self.box(nodes[0], 1)
        leaves, rows, pending = [sum(getattr(node, name) for node in nodes) for name in ("leaves", "rows", "pending")]
        what = ("entry", "entries") if self.is_index else ("row", "rows")
        lines = ["1 child left out:" if len(nodes) == 1 else f"{len(nodes)} children left out:"]
        lines += [f"{counted(leaves, 'leaf', 'leaves')}, {counted(rows, *what)},", counted(pending, "message")]
        return Box("left-out", [Line("more", line) for line in lines], is_changed=any(node.changed_nodes() for node in nodes))

    def box(self, node: Node, columns: int) -> Box:
        """The box of a node with what is below it, in at most that many columns, or as many as these levels need."""
        if node.is_leaf:
            return Box("leaf", self.own_lines(node), is_changed=node.is_changed)
        first, last = self.window(node, columns)
        rooms = self.rooms(node, first, last, columns)
        below = [self.box(child, room) if room else self.left_out([child]) for child, room in zip(node.children[first:last], rooms)]
        pivots = node.pivots[first : last - 1]
        if first:
            below, pivots = [self.left_out(node.children[:first]), *below], [node.pivots[first - 1], *pivots]
        if last < len(node.children):
            below, pivots = [*below, self.left_out(node.children[last:])], [*pivots, node.pivots[last - 1]]
        return Box("inner", self.own_lines(node), below, [Line("pivot", self.key(pivot), "|") for pivot in pivots], node.is_changed)

    def window(self, node: Node, columns: int) -> tuple[int, int]:
        """Which children are drawn: all, or as many as leave space for the levels below, around the one to be opened."""
        count = len(node.children)
        shown = count if node.leaves <= columns else min(count, max(2, columns // max(1, node.level - 1)))
        first = min(max(0, self.opened(node) - shown // 2), count - shown)
        return first, first + shown

    def opened(self, node: Node) -> int:
        """The child with the most changed nodes below, of equal ones that with the most messages pending for it below, then the first."""
        weights = [(child.changed_nodes(), child.pending) for child in node.children]
        return weights.index(max(weights))

    def rooms(self, node: Node, first: int, last: int, columns: int) -> list[int]:
        """The columns of each child that is drawn: one, more for the opened one, and 0 for one that is only counted."""
        children, opened = node.children[first:last], self.opened(node) - first
        spare = columns - len(children) - (first > 0) - (last < len(node.children))
        rooms = [1] * len(children)
        for place in [opened, *(place for place in range(len(children)) if place != opened)]:
            wanted = children[place].leaves - 1
            given = min(wanted, max(spare, 1 if place == opened and wanted else 0))
            is_enough = place == opened or given == wanted
            rooms[place] = 1 + given if is_enough else 0
            spare -= given if is_enough else 0
        return rooms


def word_of(value: str) -> str:
    """A value among others that blanks divide: in quotes where it is empty or holds a blank or a quote."""
    return value if value and not any(letter in ' "' for letter in value) else '"' + value.replace('"', '""') + '"'


# ---- the elements ----


def box_width(letters: int) -> int:
    return round(letters * LETTER) + 14


class Svg:
    """The elements of a picture whose boxes are that many letters wide, and the space that they take."""

    def __init__(self, letters: int, margin: int = GAP) -> None:
        self.elements: list[str] = []
        self.width = self.bottom = 0
        self.letters, self.margin = letters, margin
        self.box_width = box_width(letters)

    def text(self, x: int, y: int, line: Line, differences: Differences) -> str:
        shown = line.sign + text_within(line.text, self.letters - len(line.sign), differences.place(line.text))
        whole = line.sign + line.text
        title = f"<title>{escape(whole)}</title>" if shown != whole and len(whole) < MOST_TOUCHED else ""
        self.elements.append(f'<text x="{x}" y="{y}" class="{line.kind}">{escape(shown)}{title}</text>')
        return shown

    def title(self, text: str) -> None:
        """A title over the figure that is drawn next."""
        self.elements.append(f'<text x="{GAP}" y="{self.bottom + 24}" class="title">{escape(one_line(text))}</text>')
        self.width = max(self.width, 9 * len(text) + 2 * GAP)
        self.bottom += 38

    def figure(self, drawing: Drawing) -> None:
        columns = drawing.root.columns
        self.draw(drawing.root, self.margin - GAP // 2, self.bottom, drawing.differences)
        self.width = max(self.width, columns * (self.box_width + GAP) - GAP + 2 * self.margin)

    def draw(self, box: Box, left: int, top: int, differences: Differences) -> int:
        """Draws a box over what is below it, and gives the middle of its upper edge."""
        middle = left + box.columns * (self.box_width + GAP) // 2
        self.draw_box(box, middle - self.box_width // 2, top, differences)
        bottom = top + box.height()
        self.bottom = max(self.bottom, bottom + self.margin)
        borders = []
        for below in box.below:
            to = self.draw(below, left, bottom + BELOW, differences)
            self.elements.append(f'<path class="edge" d="M{middle} {bottom} V{bottom + BELOW // 3} H{to} V{bottom + BELOW}"/>')
            left += below.columns * (self.box_width + GAP)
            borders.append(left)
        for border, pivot in zip(borders, box.pivots):
            self.draw_pivot(border, bottom + BELOW - 8, pivot, differences)
        return middle

    def draw_box(self, box: Box, x: int, top: int, differences: Differences) -> None:
        changed = " changed" if box.is_changed else ""
        self.elements.append(f'<g class="{box.kind}{changed}"><rect x="{x}" y="{top}" width="{self.box_width}" height="{box.height()}" rx="4" class="node"/>')
        for place, line in enumerate(box.lines):
            y = top + LINE * (place + 1)
            if line.is_new:
                self.elements.append(f'<rect x="{x + 3}" y="{y - 12}" width="{self.box_width - 6}" height="{LINE}" class="new"/>')
            self.text(x + 7, y, line, differences)
        self.elements.append("</g>")

    def draw_pivot(self, middle: int, y: int, line: Line, differences: Differences) -> None:
        """A pivot on a white ground, so that it can be read over the edges."""
        ground = len(self.elements)
        shown = self.text(middle, y, line, differences)
        width = round(width_of(shown) * LETTER) + 6
        x = middle - width // 2
        self.elements.insert(ground, f'<rect x="{x}" y="{y - 11}" width="{width}" height="15" class="ground"/>')

    def size(self) -> str:
        return f'width="{self.width}" height="{self.bottom}" viewBox="0 0 {self.width} {self.bottom}"'

    def page(self) -> str:
        """The picture as a file."""
        head = f'<svg xmlns="http://www.w3.org/2000/svg" {self.size()}><style>{STYLE}</style><rect width="100%" height="100%" fill="#fff"/>'
        return "\n".join([head, *self.elements, "</svg>"]) + "\n"


def picture(images: Sequence[Image], columns: int, lines: int, titles: Sequence[str]) -> str:
    """The picture of images, one below the other, each under its title."""
    drawings = [Drawing(image, columns, lines) for image in images]
    svg = Svg(max(drawing.letters() for drawing in drawings))
    for drawing, title in zip(drawings, titles):
        svg.elements.append('<g class="figure">')
        svg.title(title)
        svg.figure(drawing)
        svg.elements.append("</g>")
    return svg.page()
