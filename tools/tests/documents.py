"""Tests of the documents: their lines, links, names and numbers, the scripts and shell lines in them, and the pictures of docs/TOUR.md."""

import io
import re
import shutil
import subprocess
import sys
import tempfile
import xml.etree.ElementTree as xml
from collections import Counter
from contextlib import redirect_stdout
from functools import cache
from importlib import import_module
from pathlib import Path
from unittest import TestCase, mock

from .common import imported, replies, run_forked, SECONDS, structure, TOP, ProgramTestCase, needs

PAGES = sorted(path.relative_to(TOP) for folder in (".", "docs", "bench", "examples") for path in (TOP / folder).glob("*.md"))
MEASURES = Path("bench/RESULTS.md")


def text_of(page):
    return (TOP / page).read_text()


def written_of(page):
    """A page without the lists that tools make from the sources."""
    return re.sub(r"<!-- (?!end)[^>]* -->.*?<!-- end [^>]* -->", "", text_of(page), flags=re.DOTALL)


def prose_of(page):
    """A page without its blocks of code."""
    return "".join(text_of(page).split("```")[::2])


def section(page, title):
    """What follows a heading, up to the next one of its level or a higher one."""
    level = title.split(" ")[0]
    after = text_of(page).split(f"\n{title}\n", 1)[1]
    return re.split(rf"^#{{1,{len(level)}}} ", after, maxsplit=1, flags=re.MULTILINE)[0]


def rows(text):
    """The cells of each row of the tables of a text, without their heads. An empty first cell is that of the row above."""
    found = []
    for line in re.sub(r"^\|.*\n\|[-|]+\|$", "", text, flags=re.MULTILINE).splitlines():
        if line.startswith("|"):
            cells = [cell.strip() for cell in re.split(r"(?<!\\)\|", line)[1:-1]]
            found.append([cells[0] or found[-1][0], *cells[1:]])
    return found


def quoted(text):
    """What is in backticks, also over the end of a line."""
    return [" ".join(name.split()) for name in re.findall(r"`([^`]+)`", text)]


# ---- lines and paragraphs ----


def paragraphs(text):
    """The paragraphs of a text, each a list of its lines: no tables, no blocks, and each item of a list its own."""
    outside = "".join(text.split("```")[::2])
    for part in re.split(r"\n\s*\n|\n(?= *(?:- |\d+\. ))", outside):
        lines = [line for line in part.splitlines() if line and not line.startswith(("|", "#"))]
        if lines:
            yield lines


def sentences(text):
    """The sentences of a text, with each piece of code as one word: no tables, blocks or quotations. Parts of a list that semicolons divide are apart."""
    for lines in paragraphs(re.sub(r"^>.*$", "", text, flags=re.MULTILINE)):
        plain = re.sub(r"`[^`]*`", "`", " ".join(lines)).replace("*", "")
        yield from re.split(r"(?<=[^.][.!?])\s+|;\s", plain)


# Words that a page must not use, each with the word to use instead. A word of the language or of the code is in backticks.
OTHER_WORDS = {
    r"wants? of (?:memory|room)|memory (?:is|was|were) wanting": "out of memory", r"so (?:many|much)": "that many, or the number",
    r"becom(?:es?|ing) of|became of": "the result of", r"anew": "again", r"dear(?:er|est)?": "slow, or expensive", r"great(?:est)?": "large, largest",
    r"behind(?! (?:a|the) (?:pointer|reverse proxy))": "after", r"stands?(?! for|-)|stood": "is", r"len[dt]s?": "borrowed",
    r"spell(?:s|ed)?|spelt": "written as, encodes", r"of one's own": "your own", r"(?:but|save) for": "except for",
    r"answers (?:an?|the|Ok|Err|None|what)": "returns", r"wherever": "if, where", r"house": "repository", r"thereof|whence|wherein": "of it",
}  # fmt: skip


def other_words(text):
    """The words of a text that the list above has, outside of code."""
    plain = re.sub(r"`[^`]*`", "`", "".join(text.split("```")[::2]))
    return [(found[0], instead) for pattern, instead in OTHER_WORDS.items() for found in re.finditer(rf"\b(?:{pattern})\b", plain, re.IGNORECASE)]


# Correct words that codespell reports.
OUR_WORDS = ("crate", "crates", "ot")


class LinesAndParagraphs(TestCase):
    def test_lines_of_the_documents_are_at_most_160_letters_long(self):
        self.assertEqual([f"{page}:{number}" for page in PAGES for number, line in enumerate(text_of(page).splitlines(), 1) if len(line) > 160], [])

    def test_paragraphs_of_the_documents_have_at_most_eight_lines(self):
        """But for the lists that tools make."""
        self.assertEqual([f"{page}: {lines[0]}" for page in PAGES for lines in paragraphs(written_of(page)) if len(lines) > 8], [])

    def test_a_paragraph_ends_where_the_next_one_begins(self):
        given = "# Title\na\nb\n\n- c\n  d\n- e\n1. f\n| g |\n```text\nh\n```\ni\n"
        self.assertEqual(list(paragraphs(given)), [["a", "b"], ["- c", "  d"], ["- e"], ["1. f"], ["i"]])

    def test_sentences_of_the_documents_have_at_most_40_words(self):
        self.assertEqual([f"{page}: {sentence}" for page in PAGES for sentence in sentences(written_of(page)) if len(sentence.split()) > 40], [])

    def test_a_sentence_ends_where_the_next_one_begins(self):
        given = "A *b*.* C `d. E` f; g. h? I.\n\n> J. K\n\n- L\n  m. N\n"
        self.assertEqual(list(sentences(given)), ["A b.", "C ` f", "g.", "h?", "I.", "- L   m.", "N"])

    def test_words_of_the_documents_are_plain(self):
        self.assertEqual([f"{page}: {found}: {instead}" for page in PAGES for found, instead in other_words(written_of(page))], [])

    def test_other_words_are_found(self):
        given = "So many words stand behind the others, at want of memory, but for those that `stands` and\n```sh\nanew\n```\nthat stand for more."
        self.assertEqual(sorted(found for found, _ in other_words(given)), ["So many", "behind", "but for", "stand", "want of memory"])

    @needs("codespell")
    def test_words_of_the_documents_are_spelled_right(self):
        ended = subprocess.run(["codespell", "-L", ",".join(OUR_WORDS), *PAGES], cwd=TOP, capture_output=True, text=True, timeout=SECONDS)
        self.assertEqual((ended.returncode, ended.stdout), (0, ""))

    def test_first_lines_of_the_documents_say_whom_they_are_for(self):
        def is_told(page):
            return re.search(r"\bfor (?:readers|anyone who|programs that)\b", " ".join(next(lines for lines in paragraphs(text_of(page)))), re.IGNORECASE)

        self.assertEqual([str(page) for page in PAGES if not is_told(page)], [])

    def test_decisions_are_numbered(self):
        """No two have one number. That of a decision that was removed is not used again."""
        parts = list(paragraphs(text_of("docs/DECISIONS.md")))[1:]
        numbers = [re.match(r"\*\*(\d+)\. \S", lines[0]) for lines in parts]
        self.assertEqual([lines[0] for lines, number in zip(parts, numbers) if number is None], [])
        self.assertEqual([number for number, count in Counter(int(number[1]) for number in numbers).items() if count > 1], [])
        self.assertGreater(len(parts), 60)

    def test_decisions_are_in_the_sections_of_the_table(self):
        """The table at the head of docs/DECISIONS.md has the numbers of each section, as in 1, 2, 195 to 198."""
        head, *parts = re.split(r"^## ", text_of("docs/DECISIONS.md"), flags=re.MULTILINE)
        told = {}
        for title, numbers in rows(head):
            bounds = [[int(number) for number in part.split(" to ")] for part in numbers.split(", ")]
            told[re.match(r"\[(.*)\]", title)[1]] = [number for each in bounds for number in range(each[0], each[-1] + 1)]
        self.assertEqual(told, {part.split("\n")[0]: sorted(map(int, re.findall(r"^\*\*(\d+)\.", part, re.MULTILINE))) for part in parts})


# ---- links and names ----


def anchors(page):
    """The fragments by which the headings of a page are linked."""
    titles = re.findall(r"^#+ (.*)$", prose_of(page), re.MULTILINE)
    return ["#" + re.sub(r"[^\w -]", "", title.lower()).replace(" ", "-") for title in titles]


def faulty_links(page, text):
    """The links of a page that lead to no file, or to no heading of a page."""
    faults = []
    for link in re.findall(r"\]\(([^)\s]+)\)", text):
        path, _, heading = link.partition("#")
        target = (TOP / page).parent / path if path else TOP / page
        if not target.exists() or (heading and "#" + heading not in anchors(target)):
            faults.append(f"{page}: {link}")
    return faults


# Folders of the repository, and those of a crate.
FOLDERS = ("bench", "bin", "clients", "crates", "docs", "examples", "include", "man", "packaging", "tools")
PARTS = ("src", "specs", "proofs", "must-fail", "wrong-bodies")
# The repository has none of the files in these folders.
MADE = ("out", "out/betable", "c_calls")


@cache
def is_there(path):
    """A path from the top, or one of a crate, whose files may be without their endings. NAME is any name."""
    if path.split("/", 2)[-1] in MADE:
        return True
    pattern = path.replace("NAME", "*").rstrip("/")
    places = [pattern, f"crates/{pattern}", f"crates/*/{pattern}"] if not pattern.startswith(FOLDERS) else [pattern]
    return any(any(TOP.glob(place + ending)) for place in places for ending in ("", ".rt", ".antt"))


def paths(text):
    """The words in backticks that begin as a path of the repository or of a crate, and paths of crates without backticks."""
    words = [word.strip("'\",;:()") for name in quoted(text) for word in name.split()]
    begin = tuple(f"{folder}/" for folder in (*FOLDERS, *PARTS)) + ("bt_",)
    marked = [word for word in words if "/" in word and word.startswith(begin)]
    return marked + re.findall(r"\bbt_\w+/(?:src|specs|proofs)(?:/\w+)*(?:\.rt)?", text) + re.findall(r"(?<![\w/])(?:specs|proofs)/[A-Z]\w+", text)


class LinksAndNames(TestCase):
    def test_links_of_the_documents_lead_to_what_is_there(self):
        self.assertEqual([fault for page in PAGES for fault in faulty_links(page, prose_of(page))], [])

    def test_faulty_links_are_found(self):
        good = "[a](SCRIPT.md#buffers-in-bytes) [b](../bench/RESULTS.md) [c](#tour) [d](../examples) ![e](flush.svg)"
        self.assertEqual(faulty_links("docs/SCRIPT.md", good.replace("#tour", "#limits")), [])
        faulty = ["SCRIPT.md#buffers", "RESULTS.md", "#tour", "../examples/none"]
        self.assertEqual(faulty_links("docs/SCRIPT.md", " ".join(f"[x]({link})" for link in faulty)), [f"docs/SCRIPT.md: {link}" for link in faulty])

    def test_each_page_is_linked_from_the_readme(self):
        linked = {path for _, path in re.findall(r"\[([^\]]+)\]\(([^)#]+)\)", section("README.md", "## Where to go from here"))}
        self.assertEqual([str(page) for page in PAGES if page.parent == Path("docs") and str(page) not in linked], [])

    def test_paths_in_the_documents_are_there(self):
        self.assertEqual([f"{page}: {path}" for page in PAGES for path in paths(prose_of(page)) if not is_there(path)], [])
        self.assertEqual(
            [is_there(path) for path in ("tools/none", "bt_node/src/none.rt", "specs/None", "crates/*/must-not", "examples/NAME.none")], [False] * 5
        )
        self.assertGreater(len([path for page in PAGES for path in paths(prose_of(page))]), 200)

    def test_functions_are_in_the_files_that_are_named_after_them(self):
        """As `name` (crate, file.rt), or `name` (file.rt) of some crate."""
        found, faults = 0, []
        for page in PAGES:
            for name, crate, file in re.findall(r"`([\w:]+)`\s\((?:(bt_\w+),\s)?(\w+\.rt)\)", prose_of(page)):
                word = re.compile(rf"\b{name.split('::')[-1]}\b")
                files = list(TOP.glob(f"crates/{crate or '*'}/src/**/{file}"))
                found += 1
                faults += [f"{page}: {name} ({file})"] if not any(word.search(path.read_text()) for path in files) else []
        self.assertEqual((faults, found > 40), ([], True))


# ---- CHANGING, ARCHITECTURE and WALKS ----


def file_of(crate, name):
    ending = ".antt" if name.startswith(("specs/", "proofs/")) else ""
    return TOP / name if crate == "none" else TOP / "crates" / crate.strip("`") / (name + ending)


def files_named(title):
    """The files in the table of a section of docs/CHANGING.md, as paths from the top. A file without a folder is in that of the one before it."""
    found, folder = set(), None
    for cell, _ in rows(section("docs/CHANGING.md", title)):
        for name in quoted(cell):
            path = TOP / ("crates/" + name if name.startswith("bt_") else name)
            if "/" not in name:
                path = folder / name
            path = path.with_name(path.name + ".antt") if path.parent.name == "specs" else path
            folder = path.parent
            found.add(path)
    return found


def crates_below():
    """For each crate of the program the crates directly below it: it depends on them, and none of the others that it depends on does."""
    lines = [line for line in (TOP / "crates.txt").read_text().splitlines() if not line.startswith("#")]
    # What a crate is built as may follow its name.
    below = {crate.split()[0]: {name for name in names.split() if name.startswith("bt_")} for crate, names in (line.split(":") for line in lines)}
    below = {crate: names for crate, names in below.items() if crate.startswith(("bt_", "betable"))}

    def reached(crate):
        return set().union(*({name} | reached(name) for name in below[crate]))

    return {crate: {name for name in names if not any(name in reached(other) for other in names)} for crate, names in below.items()}


class PagesForDevelopers(TestCase):
    def test_what_to_change_is_in_its_files(self):
        """Each file of a row has a name of the row, each name is in a file of it, and a row has at most three files."""
        table = rows(section("docs/CHANGING.md", "## Where to change what"))
        self.assertGreater(len(table), 40)
        for crate, change, files in table:
            with self.subTest(change=change):
                names = [name for part in re.findall(r"\(([^)]*)\)", change) for name in quoted(part)]
                texts = [file_of(crate, name).read_text() for name in quoted(files)]
                found = [[bool(re.search(rf"\b{name}\b", text)) for name in names] for text in texts]
                self.assertEqual((1 <= len(texts) <= 3, bool(names)), (True, True))
                self.assertEqual([any(row) for row in found], [True] * len(texts))
                self.assertEqual([any(column) for column in zip(*found)], [True] * len(names))

    def test_the_newest_kind_and_operation_are_in_the_files_of_their_rows(self):
        """And beside these in worked rows alone."""
        table = rows(section("docs/CHANGING.md", "## Where to change what"))
        sources = [path for folder in ("src", "specs", "proofs") for path in (TOP / "crates").glob(f"bt_*/{folder}/**/*") if path.suffix in (".rt", ".antt")]
        for change, pattern in (("a kind of values", r"\b(?:Kind|Value|ValueRef|kind|value)(?:::|\.)Bytes\b"), ("what is done with a number", r"\bMin\b")):
            with self.subTest(change=change):
                files = {file_of(crate, name) for crate, about, files in table if about.startswith(change) for name in quoted(files)}
                named = {path for path in sources if not path.name.startswith("Worked") and re.search(pattern, path.read_text())}
                self.assertEqual(sorted(map(str, named)), sorted(map(str, files)))

    def test_files_that_name_the_newest_command_and_kind_are_those_of_the_recipes(self):
        """In the crates by the command, in Python by the words of the language."""
        sources = [path for folder in ("src", "specs") for path in (TOP / "crates").glob(f"bt_*/{folder}/**/*") if path.suffix in (".rt", ".antt")]
        scripts = [
            *(TOP / "clients/python/betable").rglob("*.py"),
            *(TOP / "tools").glob("*.py"),
            *(TOP / "tools/fuzz").glob("*.py"),
            *(TOP / "tools/drawing").glob("*.py"),
        ]
        # Laws are stated of the commands that have them.
        sources = [path for path in sources if "bt_laws" not in path.parts and path.name != "Contents.antt"]
        command = {path for path in sources if re.search(r"\bRebuil[dt]\b", path.read_text())} | {path for path in scripts if 'b"rebuild"' in path.read_text()}
        kind = {path for path in scripts if re.search(r'"flag"', path.read_text())}
        for title, named in (("## How to add a command", command), ("## How to add a kind of values", kind)):
            with self.subTest(title=title):
                listed = files_named(title)
                self.assertEqual(sorted(map(str, named - listed)), [])
                self.assertEqual([str(path) for path in sorted(listed) if not path.exists()], [])
                self.assertGreater(len(named), 6)

    def test_walks_follow_calls_that_are_made(self):
        """Each function of the engine that docs/WALKS.md names is called in code of the engine, or is one at which tools/reading_list begins."""
        sources = [path.read_text() for crate in ("bt_*", "betable*") for path in (TOP / "crates").glob(f"{crate}/src/**/*.rt")]
        code = re.sub(r"//[^\n]*|^ *(?:pub |ghost )?use [^;]*;", "", "\n".join(sources), flags=re.MULTILINE)
        defined, calls = set(re.findall(r"\bfn (\w+)", code)), re.sub(r"\bfn \w+", "", code)
        roots = {root.partition(":")[2] for root in imported("tools/reading_list").ROOTS}
        named = {name.split("::")[-1] for name in quoted(prose_of("docs/WALKS.md"))} & defined - roots
        self.assertEqual([name for name in sorted(named) if not re.search(rf"\b{name}\b", calls)], [])
        self.assertGreater(len(named), 60)

    def test_crates_depend_on_each_other_as_the_architecture_says(self):
        text, below = text_of("docs/ARCHITECTURE.md"), crates_below()
        table = rows(text.split("\n## ")[0])
        self.assertEqual({quoted(crate)[0]: set(quoted(over)) for crate, over, _ in table}, below)
        graph = text.split("```text\n")[1].split("```")[0]
        self.assertEqual(set(re.findall(r"\w+", graph)), set(below))
        layers = {crate: number for number, line in enumerate(graph.splitlines()) for crate in re.findall(r"\w+", line)}
        self.assertEqual([(crate, name) for crate, names in below.items() for name in names if layers[crate] >= layers[name]], [])


# ---- what is on two pages, or in a page and in the repository ----


def constant(path, name):
    """A whole number that a file of code names."""
    return int(re.search(rf"pub const {name}: usize = ([\d_]+);", text_of(path))[1])


class SaidTwice(TestCase):
    def test_the_sentence_is_the_same_on_both_pages(self):
        sentences = [" ".join(re.findall(r"^> (.*)$", text_of(page), re.MULTILINE)) for page in ("README.md", "docs/VERIFYING.md")]
        self.assertEqual(sentences[0].split(), sentences[1].split())
        self.assertIn("exactly the bytes of the plain table's run", sentences[0])

    def test_the_measures_of_the_readme_are_those_of_the_results(self):
        told = {quoted(row[0])[0]: row[1:] for row in rows(section("README.md", "## Measures"))}
        measured = {}
        for row in rows(section(MEASURES, "## Compared with other programs")):
            measured.setdefault(quoted(row[0])[0], row[4:7])
        self.assertEqual(told, {name: measured[name] for name in told})
        self.assertGreaterEqual(len(told), 6)

    def test_recipes_are_listed(self):
        text = text_of("docs/HOW_TO.md")
        self.assertEqual(re.findall(r"^\| .*\]\((#.*)\) \|$", text.split("## ")[0], re.MULTILINE), anchors("docs/HOW_TO.md")[1:])

    def test_limits_of_the_document_are_those_of_the_model(self):
        model = imported("tools/fuzz/model.py")
        table = rows(section("docs/SCRIPT.md", "## Limits"))
        number = lambda cell: int(re.match(r"-?[\d,]+", cell)[0].replace(",", ""))
        found = {row[0]: (number(row[1]), number(row[2])) for row in table if len(row) == 3 and re.match(r"-?\d", row[1])}
        ranges = {
            "columns of a table": model.COLUMNS, "key columns, K": model.KEY_COLUMNS, "fanout of a tree, F": model.FANOUTS,
            "buffer, C, in messages": model.BUFFERS,
            "buffer, C with a `b` after it, in bytes": model.BUFFERS_IN_BYTES, "leaf of a tree, L, in rows": model.LEAVES,
            "an `int`, which has 64 bits with a sign": range(model.LEAST_INT, model.GREATEST_INT + 1),
            "bytes of a `text`, which is UTF-8": range(model.MOST_TEXT_BYTES + 1), "bytes of a `bytes`": range(model.MOST_TEXT_BYTES + 1),
            "messages of a batch": range(model.MOST_MESSAGES + 1), "operations of an upsert": range(1, model.MOST_OPERATIONS + 1),
            "indexes of a table": range(model.MOST_INDEXES + 1), "columns of an index after `on`": range(1, model.MOST_ON + 1),
            "columns of an index after `include`": range(1, model.MOST_INCLUDED + 1),
        }  # fmt: skip
        self.assertEqual({name: found.get(name) for name in ranges}, {name: (values[0], values[-1]) for name, values in ranges.items()})
        self.assertEqual(found["bytes of a script"], (0, imported("tools/explain_words").MOST_BYTES))

    def test_words_of_the_grammar_are_those_of_the_language(self):
        """Of the definitions and of the tools. Each command has a rule, and each rule is used."""
        grammar = text_of("docs/SCRIPT.md").split("```ebnf\n")[1].split("```")[0]
        words = {word for word in re.findall(r'"([^"\s]+)"', grammar) if word not in (",", ":", "_", "b")}
        language = import_module("betable.language")
        told = [
            *language.FORMS,
            *language.CLOSING.values(),
            *sum(language.BLOCK_WORDS.values(), ()),
            *language.OPERATORS,
            *language.OPERATIONS,
            *language.KINDS,
        ]
        self.assertEqual(sorted(words), sorted({word.decode() for word in told} | {"on", "include", "where"}))
        defined = set(re.findall(r'codes "(\S+?) ?"', text_of("crates/bt_script/specs/Commands.antt")))
        self.assertEqual(sorted(defined - words), [])
        rules = re.findall(r"^(\w+) +=", grammar, re.MULTILINE)
        self.assertEqual(sorted(language.FORMS), sorted(name.encode() for name in rules if name.encode() in language.FORMS))
        bodies = re.sub(r"^\w+ +=", "", grammar, flags=re.MULTILINE)
        self.assertEqual([name for name in rules[1:] if not re.search(rf"\b{name}\b", re.sub(r'"[^"]*"', " ", bodies))], [])

    def test_workloads_of_the_benchmark_are_told(self):
        told = {quoted(row[0])[0]: row[1] for row in rows(section("bench/README.md", "## Workloads"))}
        self.assertEqual(list(told), list(imported("bench/compare").WORKLOADS))

    def test_limits_of_the_command_line_are_those_of_the_code(self):
        table = rows(section("docs/SCRIPT.md", "## The command line"))
        found = {row[1].strip("`").split(" ")[0]: int(row[3].replace(",", "")) for row in table if row[1].startswith("`--")}
        names = {"--workers": "MOST_WORKERS", "--cut": "DEEPEST_CUT", "--grain": "LARGEST_GRAIN"}
        self.assertEqual(found, {option: constant("crates/bt_gang/src/crew.rt", name) for option, name in names.items()})
        self.assertEqual(found, {option: most for option, most in imported("tools/explain_words").OPTIONS.items() if most})
        self.assertEqual(int(re.search(r"^DEEPEST_CUT = (\d+)$", text_of("tools/fuzz/run"), re.MULTILINE)[1]), found["--cut"])
        self.assertEqual(imported("tools/fuzz/scripts.py").MOST_INDEXES, import_module("betable.language").MOST_INDEXES)

    def test_files_that_repeat_the_code_are_those_that_tools_generate_writes(self):
        """And one that is not is named."""
        generate = imported("tools/generate")
        other_help = generate.help_text() + "More.\n"
        with mock.patch.object(sys, "argv", ["generate", "--check"]), redirect_stdout(io.StringIO()) as printed:
            self.assertEqual((generate.main(), printed.getvalue()), (0, ""))
            with mock.patch.object(generate, "help_text", lambda: other_help):
                self.assertEqual((generate.main(), printed.getvalue()), (1, "tools/program_help.txt\n"))
            with mock.patch.dict(import_module("betable.language").CLOSING, {b"image": b"go"}):
                self.assertEqual(generate.main(), 1)
        self.assertEqual(printed.getvalue().splitlines()[-2:], [generate.VIM, generate.TEXTMATE])


# ---- scripts ----


def blocks(text):
    return [part.split("```")[0] for part in text.split("```text\n")[1:]]


def scripts(text):
    """The scripts of a text, each with its replies in the block after it."""
    found = blocks(text)
    return [(block, found[place + 1]) for place, block in enumerate(found) if re.match(r"table .*\w+:\w+\n", block)]


TREES_OF_THE_TOUR = ("primary", "by_city")


def steps_of_the_tour():
    """Of each step of docs/TOUR.md its lines, its replies, and its picture with the trees that it shows."""
    for step in text_of("docs/TOUR.md").split("\n## ")[1:]:
        lines, answer = blocks(step)
        picture = re.search(r"!\[The trees? (\w+)(?: and (\w+))?[^\]]*\]\((.*)\)", step)
        yield lines, answer, picture[3] if picture else None, [name for name in picture.groups()[:2] if name] if picture else []


def linked_repository(folder):
    """The tools, the program and the CSV file of the examples below another folder, in which lines of a document leave their files."""
    for name in ("bin", "tools", "crates", "crates.txt"):
        (folder / name).symlink_to(TOP / name)
    (folder / "examples").mkdir()
    shutil.copy(TOP / "examples/cities.csv", folder / "examples")


def shell_lines(page):
    """The shell lines of a page, each with the replies that follow it before the next heading, if some do."""
    for lines, after in [part.split("```", 1) for part in text_of(page).split("```sh\n")[1:]]:
        yield lines, next(iter(blocks(after.split("\n## ")[0].split("```sh\n")[0])), None)


class Scripts(ProgramTestCase):
    def test_scripts_of_the_documents_give_their_replies(self):
        shown = {str(page): scripts(text_of(page)) for page in PAGES}
        self.assertEqual(
            [page for page in ("docs/SCRIPT.md", "docs/HOW_TO.md") if len(shown[page]) < 5] + [page for page in ("docs/TOUR.md",) if not shown[page]], []
        )
        for page, pairs in shown.items():
            with self.subTest(page=page):
                for script, answer in pairs:
                    self.assertEqual(replies(script), answer)

    def test_the_tour_gives_its_replies(self):
        """All steps in one run, with the images of both trees after each: a tree is shown after each step that changes it."""
        steps = list(steps_of_the_tour())
        text = replies("".join(lines + "".join(f"image {name}\n" for name in TREES_OF_THE_TOUR) for lines, *_ in steps))
        before = dict.fromkeys(TREES_OF_THE_TOUR)
        for lines, answer, _, shown in steps:
            with self.subTest(lines=lines):
                self.assertEqual(text[: len(answer)], answer)
                text, now = text[len(answer) :], {}
                for name in TREES_OF_THE_TOUR:
                    image = re.match(r"refused .*\n|image .*\n(?:.*\n)*?end\n", text)[0]
                    text, now[name] = text[len(image) :], image
                self.assertEqual(shown, [name for name in now if now[name] != before[name] and now[name].startswith("image ")])
                before = now
        self.assertEqual(text, "")

    def test_pictures_of_the_tour_are_those_of_today(self):
        script, shown = "", []
        for lines, _, picture, trees in steps_of_the_tour():
            with self.subTest(picture=picture):
                script += lines
                if picture:
                    with tempfile.TemporaryDirectory() as folder:
                        path = Path(folder) / "script"
                        path.write_text(script + "".join(f"image {name}\n" for name in trees))
                        status, text, errors = run_forked("tools/draw", "--script", path)
                    self.assertEqual((status, errors), (0, ""))
                    self.assertEqual(structure(xml.parse(TOP / "docs" / picture).getroot()), structure(xml.fromstring(text)))
                    shown.append(picture)
        self.assertEqual(sorted(shown), sorted(path.name for path in (TOP / "docs").glob("tour_*.svg")))

    def test_shell_lines_of_the_documents_do_what_they_say(self):
        """Lines followed by replies give these; those of the CSV file give its rows again, and the two commands of the README are not run."""
        with_replies = 0
        for page in ("README.md", "docs/HOW_TO.md"):
            for lines, answer in shell_lines(page):
                if answer is None and "bin/test" in lines:
                    continue
                with tempfile.TemporaryDirectory() as folder:
                    linked_repository(Path(folder))
                    ended = subprocess.run(["sh", "-c", lines], cwd=folder, capture_output=True, text=True, timeout=SECONDS)
                    self.assertEqual((ended.returncode, ended.stdout), (0, answer or ""))
                    if answer is None:
                        self.assertEqual((Path(folder) / "again.csv").read_text(), (TOP / "examples/cities.csv").read_text())
                    # What tools/from_csv chose.
                    told = [line for line in ended.stderr.splitlines() if not re.match(r"\d+ records, |  table ", line)]
                    self.assertEqual((told, "from_csv" in lines or ended.stderr == ""), ([], True))
                    with_replies += answer is not None
        self.assertEqual(with_replies, 4)

    def test_a_csv_file_is_loaded(self):
        """The lines of docs/HOW_TO.md: fields with quotes and line breaks, a last line without one, and 100,000 records."""
        lines = section("docs/HOW_TO.md", "## A CSV file by hand").split("```sh\n")[1].split("```")[0]
        with tempfile.TemporaryDirectory() as folder:
            path = Path(folder)
            linked_repository(path)

            def loaded(records=None):
                if records is not None:
                    (path / "examples/cities.csv").write_bytes(records)
                return subprocess.run(["sh", "-c", lines], cwd=folder, capture_output=True, text=True, timeout=SECONDS).stdout

            # That of the repository, by the rows that it has.
            records = (TOP / "examples/cities.csv").read_text().splitlines()[1:]
            self.assertEqual((len(records) >= 12, any('"' in record for record in records)), (True, True))
            self.assertIn("".join(f"  > row {record}\n" for record in records) + f"  > rows {len(records)}\n", loaded())
            text = loaded(b'\xef\xbb\xbfid,city,qty\r\n3,"Oslo, west",30\r\n1,"the ""old"" town",10\r\n2,"line\nbreak",2')
            seen = '  > row 1,"the ""old"" town",10\n  > row 2,"line\\x0abreak",2\n  > row 3,"Oslo, west",30\n  > rows 3\n'
            self.assertIn("  > loaded 3\n", text)
            self.assertIn(seen, text)
            text = loaded(b"id,city,qty\n" + b"".join(b"%d,x,1\n" % (key * 7919 % 100_003) for key in range(100_000)))
            self.assertIn("  > loaded 100000\n", text)
            self.assertIn("  > rows 100000\n", text)
            self.assertIn("14 DuplicateKey 2", loaded(b"id,city,qty\n1,x,1\n1,y,1\n"))
