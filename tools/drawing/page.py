"""A page that goes through a run step by step: each command with its reply, and the trees as they were printed last.

It is one file, HTML that is well-formed XML too. If the browser runs no scripts, it shows all steps and all trees.
"""

import re
from html import escape
from pathlib import Path

from betable.figures import GAP, STYLE, Drawing, Svg, box_width
from betable.language import counted, printable, visible
from betable.trees import PRIMARY

MOST_BLOCK, MOST_REPLY, MOST_IMAGE = 12, 12, 1  # lines of a block, of a reply and of the reply to an image that are shown
MOST_LETTERS = 300  # of a line
MARGIN = 2  # round a figure
LEAST_SCALE = 0.7  # of a figure that is too wide; beyond that it is scrolled
WIDTH, LEAST_COLUMNS, MOST_COLUMNS = 1150, 4, 8  # of a figure if no number of columns is given
NOTHING_PRINTED = "No command up to here has printed a tree. With <code>--every</code> each tree is printed where it has changed."
FOLDER = Path(__file__).resolve().parent


class Figure:
    """A tree as it was printed: its drawing, what is above it, and how many of its nodes were changed."""

    def __init__(self, image, before, number):
        if before:
            image.mark_changes(before)
        nodes = list(image.root.nodes())
        self.number, self.name, self.key_names = number, image.name, image.key_columns.names_once()
        self.is_first, self.nodes = before is None, len(nodes)
        self.changed, self.gone = sum(node.is_changed for node in nodes), image.nodes_gone
        what = ("entry", "entries") if image.is_index() else ("row", "rows")
        self.counts = [f"height {image.height}", counted(image.root.leaves, "leaf", "leaves"), counted(image.root.rows, *what)]
        self.counts += [counted(image.root.pending, "pending message")] if image.root.pending else []
        self.drawing = None

    def state(self):
        """What the figure says of changes."""
        if self.is_first:
            return "first image"
        changed = f"{self.changed} of {counted(self.nodes, 'node')} changed" if self.changed else "no node changed"
        return f"{changed}, {self.gone} gone" if self.gone else changed

    def is_news(self):
        return self.is_first or self.changed > 0 or self.gone > 0

    def element(self, letters):
        svg = Svg(letters, MARGIN)
        svg.bottom = MARGIN
        svg.figure(self.drawing)
        columns = f" <span>({escape(', '.join(self.key_names))})</span>" if self.key_names else ""
        style = f"max-width:{svg.width}px;min-width:{round(svg.width * LEAST_SCALE)}px"
        return "\n".join([
            f'<figcaption><b>{escape(self.name)}</b>{columns} <span class="counts">{" · ".join(self.counts)}</span>',
            f'<span class="state">{self.state()}</span><span class="when"></span></figcaption>',
            f'<div class="picture"><svg xmlns="http://www.w3.org/2000/svg" {svg.size()} style="{style}" role="img">',
            *svg.elements,
            "</svg></div>",
        ])  # fmt: skip


class Trees:
    """The figures of a run, and the trees that there are after the last step: of each its figure and the step that printed it."""

    def __init__(self, columns, lines):
        self.columns, self.lines, self.letters = columns, lines, {}
        self.figures, self.images, self.shown = [], {}, {}

    def take(self, number, step):
        """Goes on by a step, and gives the figures to be shown, each as its number and that of the step that printed it."""
        gone = step.tree_made_or_dropped()
        if gone is not None:
            self.images.pop(gone, None)
            self.shown.pop(gone, None)
        for image in step.images:
            figure = Figure(image, self.images.get(image.name), len(self.figures) + 1)
            # An image that was added and shows nothing new means that the tree has not changed.
            if figure.is_news() or step.command.head.word == b"image":
                figure.drawing = self.drawing(image)
                self.figures.append(figure)
                self.images[image.name], self.shown[image.name] = image, (figure.number, number)
        return list(self.shown.values())

    def drawing(self, image):
        """The drawing of an image, in as many columns as fit on a screen if no number was given."""
        drawing = Drawing(image, self.columns or MOST_COLUMNS, self.lines)
        letters = self.letters[image.name] = max(drawing.letters(), self.letters.get(image.name, 0))
        columns = max(LEAST_COLUMNS, WIDTH // (box_width(letters) + GAP))
        return drawing if self.columns or columns >= drawing.root.columns else Drawing(image, columns, self.lines)

    def elements(self):
        """The figures, tree by tree. Those of one tree have boxes of one width, so that they stay in their places."""
        names = list(dict.fromkeys(figure.name for figure in self.figures))
        for figure in sorted(self.figures, key=lambda figure: (figure.name != PRIMARY, names.index(figure.name))):
            yield f'<figure data-figure="{figure.number}">\n{figure.element(self.letters[figure.name])}\n</figure>'


# ---- steps ----


def first_lines(lines, count, most):
    """The first lines of a long text, and how many are left out. If that would be one, it is shown too."""
    most = count if count == most + 1 else most
    more = [f"<i>… {counted(count - most, 'more line')}</i>"] if count > most else []
    return "\n".join([*(escape(text_of_line(line)) for line in lines[:most]), *more])


def text_of_line(line):
    """A line; a text with line breaks may make several."""
    return "\n".join(printable(part.replace("\t", "→"))[:MOST_LETTERS] for part in line.split("\n"))


def block_of(command):
    """The block of a command as an element, with its closing line, or nothing."""
    if not command.closing:
        return ""
    lines = [line.raw.removesuffix(b"\r").decode("utf-8", "backslashreplace") for line in command.lines[: MOST_BLOCK + 1]]
    closing = escape(command.closing.decode()) if command.is_closed else "<i>the script ends in this block</i>"
    text = first_lines(lines, len(command.lines), MOST_BLOCK)
    return f'<pre class="block">{text}\n{closing}</pre>' if lines else f'<pre class="block">{closing}</pre>'


def step_element(number, step, trees):
    """A step: its command, and its reply; `trees` are the figures that are shown with it."""
    head = step.command.head
    kinds = ["step"] + ["refused"] * step.is_refused + ["changes"] * any(printed == number for _, printed in trees)
    figures = " ".join(f"{figure}:{printed}" for figure, printed in trees)
    most = MOST_IMAGE if head.word == b"image" else MOST_REPLY
    return "\n".join([
        f'<li class="{" ".join(kinds)}" data-step="{number}" data-trees="{figures}">',
        f'<button type="button" class="command" title="line {head.number}"><span class="number">{number}</span>'
        f"<code>{escape(visible(head.text, MOST_LETTERS))}</code></button>",
        f'<div class="detail">{block_of(step.command)}<pre class="reply">{first_lines(step.reply, step.reply_length, most)}</pre></div>',
        "</li>",
    ])  # fmt: skip


def page(run, words, name):
    """The page of a run, or None where it prints no image."""
    trees, steps = Trees(words.columns, words.lines), []
    for number, step in enumerate(run.steps(words.program), 1):
        steps.append(step_element(number, step, trees.take(number, step)))
    if not trees.figures:
        return None
    if run.left_out:
        steps.append(f'<li class="rest">{counted(run.left_out, "more command")} of the script are not on this page.</li>')
    parts = {
        "name": escape(name),
        "count": str(len(run.commands)),
        "printing": "every" if words.every else "script",
        "nothing printed": "There is no tree yet." if words.every else NOTHING_PRINTED,
        "style of figures": STYLE.strip(),
        "steps": "\n".join(steps),
        "figures": "\n".join(trees.elements()),
    }
    template = (FOLDER / "page.html").read_text(encoding="utf-8")
    return re.sub(r"\[([a-z ]+)\]", lambda place: parts.get(place[1], place[0]), template)
