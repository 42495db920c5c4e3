"""The steps of a run: each command of a script with its reply, and the trees that it printed."""

import subprocess
import tempfile

from betable.language import COMMANDS, NAME, PRIMARY, commands, logical_lines, reply
from betable.schema import Trees, trees_after
from betable.trees import HEAD, Broken, image_of, key_columns_of

MOST_STEPS = 1000
MOST_REPLY = 16  # lines of a reply that are kept


class Failed(Exception):
    """Why the program did not run to its end, or why its replies are not those of the script."""


class Step:
    """A command with the first lines of its reply, and the images that it printed or that were added after it."""

    def __init__(self, command, answer):
        self.command = command
        self.reply = [text_of(line) for line in answer[:MOST_REPLY]]
        self.reply_length = len(answer)
        self.is_refused = is_refused(answer)
        self.images, self.last_reply = [], text_of(answer[-1])

    def tree_made_or_dropped(self):
        """The name of the tree that the command made or dropped, so that no image before shows it, or None."""
        word = self.command.head.word
        return self.command.head.text.split()[1].decode() if word in (b"index", b"drop") and not self.is_refused else None


def text_of(line):
    return line.removesuffix(b"\n").decode("utf-8", "replace")


class Run:
    """A script whose first `most` commands, or all, are run, with the images that are added after them if `is_every` is true."""

    def __init__(self, script, is_every=False, most=None):
        found, names = list(commands(script)), [PRIMARY]
        self.commands = found[:most]
        self.left_out = len(found) - len(self.commands)
        self.images_behind = [trees_that_change(command, names) if is_every else [] for command in self.commands]

    def script(self):
        """The script that is run. Its replies are those of the commands, and after each those of the images that were added."""
        parts = []
        for command, names in zip(self.commands, self.images_behind):
            parts += [command.head.raw, b"\n", command.block]
            if command.is_closed:
                parts += [command.closing, b"\n"]
            parts += [b"image " + name + b"\n" for name in names]
        return b"".join(parts)

    def steps(self, program):
        """The steps, one after the other, while the program runs."""
        with tempfile.NamedTemporaryFile() as file:
            file.write(self.script())
            file.flush()
            try:
                running = subprocess.Popen([program, "--script", file.name], stdin=subprocess.DEVNULL, stdout=subprocess.PIPE)
            except OSError as fault:
                raise Failed(f"the program {program} does not run: {fault.strerror}") from None
            with running:
                try:
                    yield from self.steps_of(logical_lines(running.stdout))
                except (Broken, Failed):
                    # Of a program that ended too early its status says more.
                    running.stdout.read()
                    if running.wait() == 0:
                        raise
        if running.returncode != 0:
            raise Failed(f"the program did not run to its end: its status is {running.returncode}")

    def steps_of(self, lines):
        """The steps with these replies."""
        trees, number, before = Trees(), 0, ""
        for command, names in zip(self.commands, self.images_behind):
            answer = reply(command.head.word, lines)
            if not answer:
                raise Failed(f"the replies end before that of line {command.head.number}, '{text_of(command.head.text)[:80]}'")
            trees = trees_after(trees, command, answer[0])
            step = Step(command, answer)
            is_image = command.head.word == b"image" and not step.is_refused
            before = before if is_image else step.last_reply
            printed = [answer] if is_image else [found for found in (reply(b"image", lines) for _ in names) if not is_refused(found)]
            for lines_of_image in printed:
                number += 1
                step.images.append(image_of_answer(lines_of_image, number, before, trees))
            before = "" if printed else before
            yield step
        if next(lines, None) is not None:
            raise Failed("more lines are replied than the script has commands, so the program has another language")


def is_refused(answer):
    return not answer or answer[0].startswith(b"refused ")


def trees_that_change(command, names):
    """The trees that a command may change, by their names; it may also give a new name to `names`.

    A name that is none by then is no fault: its image is refused, and the refusal is taken out of the replies.
    """
    word, words = command.head.word, command.head.text.split()
    changes = COMMANDS[word].changes if word in COMMANDS else "nothing"
    if command.closing and not command.is_closed:
        return []
    if word == b"table":
        return [PRIMARY]
    if changes == "all trees":
        return list(names)
    if changes != "its tree" or len(words) < 2 or not NAME.fullmatch(words[1]):
        return []
    if words[1] not in names:
        names.append(words[1])
    return [words[1]]


def image_of_answer(answer, number, before, trees):
    """The image in a reply, with the columns of its tree."""
    head = HEAD.fullmatch(text_of(answer[0]))
    if head is None or not trees.has_tree(head[1].encode()):
        raise Failed(f"'{text_of(answer[0])[:80]}' is replied to an image, so the program has another language")
    return image_of(iter([text_of(line) for line in answer]), number, before, key_columns_of(trees.tree(head[1])))
