"""Tests of the sources in crates/ as texts: the lines of proofs, lemmas that nothing cites, and the words of comments."""

import re
from collections import Counter
from unittest import TestCase

from .common import TOP
from .documents import other_words


def sources(*endings):
    return sorted(path for ending in endings for path in (TOP / "crates").glob(f"*/[!o]*/**/*.{ending}"))


def comments(text):
    """The numbers and comments of the lines of a source, of Rattle or of proofs. In a line of code `//` and `--` may be part of a text in quotes."""
    for number, line in enumerate(text.splitlines(), 1):
        found = re.match(r"\s*(?:///?|//!|--)(?:\s|$)(.*)", line) or re.search(r"\s(?://|--)\s([^\"]*)$", line)
        if found:
            yield number, found[1]


WORD = re.compile(r"[^\s(){}\[\],.;:«»|λ]+")
SIGNATURE = re.compile(r"(\s*)(?:pub )?([^\s(){}\[\],.;:]+) : ")


def words_of_code(text, ending):
    """The words of each line but those of imports and comments."""
    for line in text.splitlines():
        code = line.split("--")[0] if ending == ".antt" else line
        yield [] if code.startswith("use ") else WORD.findall(code)


def lemmas(text):
    """The lemmas that a file of proofs states: of each the number of its line, its name, and how often its own lines name it."""
    lines, words = text.splitlines(), list(words_of_code(text, ".antt"))
    for number, line in enumerate(lines):
        found = SIGNATURE.match(line)
        if found and not line.lstrip().startswith(("--", "|", "record")):
            indent, name = len(found[1]), found[2]
            end = number + 1
            # Its cases, which begin with its name, and what is further in or closes a bracket.
            while end < len(lines) and (not lines[end].strip() or len(lines[end]) - len(lines[end].lstrip()) > indent
                                        or re.match(rf"\s{{{indent}}}(?:[\])}}]|{re.escape(name)}(?:\s|$))", lines[end])):  # fmt: skip
                end += 1
            yield number + 1, name, sum(line.count(name) for line in words[number:end])


def uncited(texts):
    """The lemmas that no line of these sources names but their own. Answers to goals and worked rows are named by nothing."""
    named = Counter(word for path, text in texts.items() for line in words_of_code(text, path.suffix) for word in line)
    return [f"{path}:{number}: {name}" for path, text in texts.items() if "proofs" in path.parts and not re.match("Answers|Invariants|Proof|Worked", path.name)
            for number, name, own in lemmas(text) if named[name] == own]  # fmt: skip


def private_lemmas(crate, text, is_file):
    """The modules of proofs that a source of this crate cites of another one, outside of what that one offers. What the prover makes of a type is no file."""
    for other, module in re.findall(r"Rattle\.(\w+)\.proofs\.([\w.]+)", text):
        module = module.rstrip(".")
        if other != crate and module.split(".")[0] != "offered" and is_file(other, module):
            yield f"{other}.{module}"


class Sources(TestCase):
    def test_lines_of_proofs_are_at_most_200_letters_long(self):
        """Except for those with a text in quotes, which a line end would change."""
        long = [f"{path.relative_to(TOP)}:{number}" for path in sources("antt") for number, line in enumerate(path.read_text().splitlines(), 1)
                if len(line) > 200 and '"' not in line]  # fmt: skip
        self.assertEqual(long, [])

    def test_words_of_comments_are_plain(self):
        self.assertEqual([f"{path.relative_to(TOP)}:{number}: {found}: {instead}" for path in sources("rt", "antt") for number, comment in comments(path.read_text())
                for found, instead in other_words(comment)], [])  # fmt: skip

    def test_comments_of_a_source_are_found(self):
        given = '// a\n    /// b\nlet x = 1; // c\nlet y = "// d";\n-- e\nf = g -- h\n//! i\n//\nj --k\n'
        self.assertEqual(list(comments(given)), [(1, "a"), (2, "b"), (3, "c"), (5, "e"), (6, "h"), (7, "i"), (8, "")])

    def test_each_lemma_is_cited(self):
        self.assertEqual(uncited({path.relative_to(TOP): path.read_text() for path in sources("rt", "antt")}), [])

    def test_a_lemma_that_nothing_cites_is_found(self):
        given = "use Rattle.a.proofs.A.{left}\n\nleft : a\nleft = refl\n\n  where\n\npub right : (n : ℕ) → b\nright zero = elim n [\n  | one\n]\nright n = right n -- right\n\nused : c\nused = d\n"
        texts = {
            TOP / "crates/a/proofs/A.antt": given,
            TOP / "crates/a/src/a.rt": "// used\nuse a::used;\n",
            TOP / "crates/a/proofs/a/Answers.antt": "goal : used\n",
        }
        self.assertEqual(
            uncited({path.relative_to(TOP): text for path, text in texts.items()}), ["crates/a/proofs/A.antt:3: left", "crates/a/proofs/A.antt:8: right"]
        )

    def test_lemmas_of_other_crates_are_offered(self):
        def is_file(crate, module):
            return (TOP / "crates" / crate / "proofs" / f"{module.replace('.', '/')}.antt").exists()

        self.assertEqual([f"{path.relative_to(TOP)}: {module}" for path in sources("rt", "antt")
                for module in private_lemmas(path.relative_to(TOP).parts[1], path.read_text(), is_file)], [])  # fmt: skip

    def test_a_lemma_that_is_not_offered_is_found(self):
        given = "use Rattle.a.proofs.A.{x}\nuse Rattle.b.proofs.B.{y}\nuse Rattle.b.proofs.offered.B.{z}\nuse Rattle.b.proofs.key.TheLaws.{w}\n"
        self.assertEqual(list(private_lemmas("a", given, lambda _, module: "The" not in module)), ["b.B"])
