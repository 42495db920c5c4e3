"""Tests of the manual page, of the completions of bash, zsh and fish, and of the version. Where a shell or mandoc is not installed a line says so, and what
needs it passes without a look."""

import os
import pty
import re
import select
import shlex
import shutil
import subprocess
import tempfile
from unittest import TestCase

from .common import imported, PROGRAM, SECONDS, TOP, ProgramTestCase, needs

import betable

TOOLS = ["shell", "engine", "serve", "convert", "copy", "explain", "from_csv", "to_csv", "draw"]
OPTIONS = ["--script", "--workers", "--cut", "--grain", "--help", "--version"]
PAGE = TOP / "man/betable.1.in"
COMPLETIONS = TOP / "packaging/completions"


def typed_in_zsh(typed: str) -> str:
    """What is seen after `betable TYPED`, the tab key and return."""
    with tempfile.TemporaryDirectory() as folder:
        shutil.copy(COMPLETIONS / "_betable", folder)
        start = f"fpath=({folder} $fpath); autoload -U compinit; compinit -u -D; betable() {{ print words:${{(j:,:)@}}: }}; print rea''dy"
        ours, theirs = pty.openpty()
        environment = {**os.environ, "TERM": "dumb", "HOME": folder, "ZDOTDIR": folder}
        shell = subprocess.Popen(["zsh", "-f", "-i"], stdin=theirs, stdout=theirs, stderr=theirs, cwd=folder, env=environment, start_new_session=True)
        os.close(theirs)
        try:
            os.write(ours, f"{start}\n".encode())
            seen_until(ours, "ready")
            os.write(ours, f"betable {typed}\t\n".encode())
            return seen_until(ours, "words:")
        finally:
            shell.kill()
            shell.wait()
            os.close(ours)


def seen_until(terminal: int, mark: str) -> str:
    """What is read up to the end of the line with the mark."""
    seen = ""
    while not re.search(f"{mark}.*\n", seen):
        if not select.select([terminal], [], [], SECONDS)[0]:
            raise AssertionError(f"no {mark} after {seen!r}")
        seen += os.read(terminal, 4_096).decode(errors="replace")
    return seen


class Manual(TestCase):
    def test_the_version_is_told_once(self) -> None:
        """And Cargo.toml, which cannot read a file, has the same. What is not released yet may be above it in the changelog."""
        version = (TOP / "VERSION").read_text().strip()
        self.assertIsNotNone(re.fullmatch(r"\d+\.\d+\.\d+", version))
        self.assertEqual(betable.__version__, version)
        self.assertEqual(re.findall(r'^version = "(.*)"$', (TOP / "clients/rust/Cargo.toml").read_text(), re.MULTILINE), [version])
        titles = re.findall(r"^## (\S+)", (TOP / "CHANGELOG.md").read_text(), re.MULTILINE)
        self.assertEqual([title for title in titles if title != "Unreleased"][:1], [version])

    def test_the_manual_page_and_completions_have_the_options_of_the_program(self) -> None:
        limits = {**imported("tools/explain_words").OPTIONS, "--help": None, "--version": None}
        self.assertEqual(list(limits), OPTIONS)
        page = PAGE.read_text()
        self.assertEqual(set(re.findall(r"^\.It Fl -(\w+)", page, re.MULTILINE)), {name[2:] for name in limits})
        self.assertEqual(re.findall(r"^\.Cm (.*)$", page, re.MULTILINE), [" | ".join(TOOLS)])
        self.assertEqual(re.findall(r"^\.It Cm (\w+)", page, re.MULTILINE), TOOLS)
        texts = {name: (COMPLETIONS / name).read_text() for name in ("betable.bash", "_betable", "betable.fish")}
        self.assertEqual(set(re.findall(r"--\w+", texts["betable.bash"])), set(limits))
        self.assertEqual(set(re.findall(r"--\w+", texts["_betable"])), set(limits))
        self.assertEqual({f"--{name}" for name in re.findall(r" -l (\w+)", texts["betable.fish"])}, set(limits))
        self.assertEqual(re.findall(r'"(shell [^"]*)"', texts["betable.bash"]), [" ".join(TOOLS)])
        self.assertEqual(re.findall(r"^    '([a-z]\w+):", texts["_betable"], re.MULTILINE), TOOLS)
        self.assertEqual(re.findall(r" -a ([a-z]\w+)", texts["betable.fish"]), TOOLS)
        for name, most in limits.items():
            if most is not None:
                self.assertIn(f"1 to {most} (default", page.split(f".It Fl -{name[2:]} ")[1].split(".It")[0].replace("\n", " "))
                for text in (texts["_betable"], texts["betable.fish"]):
                    self.assertEqual([line for line in text.splitlines() if name[2:] in line and f"1 to {most}" not in line], [])

    @needs("mandoc")
    def test_the_manual_page_has_no_faults(self) -> None:
        words = ["mandoc", "-Tlint", "-Wwarning", str(PAGE)]
        lines = subprocess.run(words, capture_output=True, text=True).stdout.splitlines()
        self.assertEqual([line for line in lines if "@DATE@" not in line and "mandoc.db" not in line], [])

    def test_completion_in_bash(self) -> None:
        """As bash does it: with the words typed so far; the last one is completed."""
        file = shlex.quote(str(COMPLETIONS / "betable.bash"))
        cases: list[tuple[str, list[str]]] = [
            ("", [*OPTIONS, *TOOLS]), ("--", OPTIONS), ("--w", ["--workers"]), ("--cut 2 --g", ["--grain"]), ("from", ["from_csv"]), ("--cut 2 from", []),
            ("--script --w", []), ("--cut --w", []),
        ]  # fmt: skip
        for words, wanted in cases:
            with self.subTest(words=words):
                typed = words.split(" ")
                lines = (
                    f'. {file}; COMP_WORDS=(betable {" ".join(map(shlex.quote, typed))}); COMP_CWORD={len(typed)}; COMPREPLY=(); _betable 2>/dev/null; '
                    'printf "%s\\n" "${COMPREPLY[@]}"'
                )
                told = subprocess.run(["bash", "--norc", "-c", lines], capture_output=True, text=True, check=True).stdout
                self.assertEqual(told.split(), wanted)

    @needs("fish")
    def test_completion_in_fish(self) -> None:
        file = shlex.quote(str(COMPLETIONS / "betable.fish"))
        for words, wanted in (("betable --w", ["--workers"]), ("betable se", ["serve"]), ("betable --workers 2 --c", ["--cut"])):
            with self.subTest(words=words):
                with tempfile.TemporaryDirectory() as folder:
                    environment = {**os.environ, "HOME": folder}
                    lines = f"source {file}; complete --do-complete {shlex.quote(words)}"
                    told = subprocess.run(["fish", "--no-config", "--command", lines], capture_output=True, text=True, cwd=folder, env=environment).stdout
                self.assertEqual([line.split("\t")[0] for line in told.splitlines()], wanted)

    @needs("zsh")
    def test_completion_in_zsh(self) -> None:
        """At a terminal, by the tab key: the command is a function that prints its words."""
        for typed, wanted in (("--wor", "--workers"), ("fro", "from_csv"), ("--vers", "--version")):
            self.assertIn(f"words:{wanted}:", typed_in_zsh(typed))


class ManualWithProgram(ProgramTestCase):
    def test_the_manual_page_says_what_help_says(self) -> None:
        """Of which options there are, and of their numbers."""
        page = PAGE.read_text()
        text = subprocess.run([PROGRAM, "--help"], capture_output=True, text=True, check=True).stdout
        self.assertEqual({*re.findall(r"^ +(?:-\w, )?(--\w+)", text, re.MULTILINE), "--version"}, set(OPTIONS))
        told = re.findall(r"--(\w+).*?(1 to \d+ \(default \d+\))", text)
        self.assertEqual(len(told), 3)
        for name, limits in told:
            self.assertIn(limits, page.split(f".It Fl -{name} ")[1].split(".It")[0].replace("\n", " "))
