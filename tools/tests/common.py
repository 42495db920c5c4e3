"""What the tests share: running the tools, and comparing what they print."""

import os
import shutil
import signal
import subprocess
import sys
import tempfile
import traceback
import unittest
import xml.etree.ElementTree as xml
from functools import cache
from importlib.machinery import SourceFileLoader
from importlib.util import module_from_spec, spec_from_loader
from pathlib import Path

TOP = Path(__file__).resolve().parents[2]
# The program that bin/betable runs once it is built. Tests of replies, and of what tools report about them, start it without bin/betable.
PROGRAM = TOP / "crates/betable/out/betable"
SECONDS = 200  # seconds within which a started process has to end, also while other tests run
sys.path += [str(TOP / "tools"), str(TOP / "clients/python")]
SVG = "{http://www.w3.org/2000/svg}"
TABLE = "table 4 3 2 1 id:int city:text qty:int"


def needs(program):
    """Skips a test if a program is not installed."""
    return unittest.skipUnless(shutil.which(program), f"{program} is not installed")


@cache
def build_program():
    """Builds the program if it is missing, or if sources are newer that no commit has, which bin/betable does not look for."""
    state = subprocess.run([TOP / "bin/betable", "--version"], capture_output=True, text=True).stdout
    if "\nprogram: proved and built\n" not in state and subprocess.run([TOP / "tools/build_program"]).returncode != 0:
        raise RuntimeError("tools/build_program does not build the program")


@cache
def build_extension():
    """Builds the extension of the Python client, if it can be. It is built in the checkout, so it is done before tests run side by side."""
    with tempfile.TemporaryDirectory() as folder:
        words = [sys.executable, TOP / "clients/python/setup.py", "-q", "build_ext", "--inplace", "--build-temp", folder]
        subprocess.run(words, capture_output=True)


class ProgramTestCase(unittest.TestCase):
    """Tests that run the program."""

    @classmethod
    def setUpClass(cls):
        build_program()


def output_of(words, **options):
    """The standard output of a command that ends with status 0 and prints no error."""
    ended = subprocess.run(words, capture_output=True, **options)
    if ended.returncode or ended.stderr:
        raise AssertionError(f"{words[0]}: status {ended.returncode}, {ended.stderr!r}")
    return ended.stdout


def fault_of(call):
    """What a call raises, or None."""
    try:
        call()
    except Exception as fault:
        return fault
    return None


def type_of_fault(call):
    return type(fault_of(call))


def run(*words, given=b"", folder=TOP, seconds=SECONDS):
    """The status, the standard output and the standard error of a command of the repository."""
    ended = subprocess.run([TOP / words[0], *words[1:]], input=given, capture_output=True, cwd=folder, timeout=seconds)
    return ended.returncode, ended.stdout.decode(), ended.stderr.decode()


def run_forked(tool, *words, given=b""):
    """What `run` gives of a tool in Python, from a child of this process, which has the tool's modules: to start Python would cost many times as much."""
    code = code_of(tool)
    with tempfile.TemporaryFile() as script, tempfile.TemporaryFile() as text, tempfile.TemporaryFile() as errors:
        script.write(given)
        script.seek(0)
        child = os.fork()
        if child == 0:
            status = 1
            try:
                status = status_of(code, words, (script, text, errors))
            finally:
                os._exit(status)
        status = os.waitstatus_to_exitcode(os.waitpid(child, 0)[1])
        for file in (text, errors):
            file.seek(0)
        return status, text.read().decode(), errors.read().decode()


@cache
def code_of(tool):
    """The code of a tool, whose modules are loaded with it."""
    imported(tool)
    return compile((TOP / tool).read_bytes(), TOP / tool, "exec")


def status_of(code, words, streams):
    """The status with which a tool ends in this process, on these words and streams, as if Python had been started on it."""
    signal.alarm(SECONDS)
    os.chdir(TOP)
    for place, stream in enumerate(streams):
        os.dup2(stream.fileno(), place)
    sys.stdin, sys.stdout, sys.stderr = open(0), open(1, "w"), open(2, "w", errors="backslashreplace")
    sys.argv = [code.co_filename, *map(str, words)]
    status = 0
    try:
        exec(code, {"__name__": "__main__", "__file__": code.co_filename})
    except SystemExit as ended:
        status = ended.code
    except BaseException:
        traceback.print_exc()
        status = 1
    sys.stdout.flush()
    sys.stderr.flush()
    return status


def replies(script):
    """Those of the program by itself, since there are many of them."""
    return output_of([PROGRAM], input=script.encode(), timeout=SECONDS).decode()


def explained(script, *words):
    """The status and the lines of tools/explain on a script."""
    with tempfile.TemporaryDirectory() as folder:
        path = Path(folder) / "script"
        path.write_bytes(script if isinstance(script, bytes) else script.encode())
        status, text, errors = run_forked("tools/explain", "--program", PROGRAM, *words, path)
    if errors:
        raise AssertionError(errors)
    return status, text.splitlines()


def drawn(images, *words):
    """The picture of tools/draw for these replies."""
    status, text, errors = run_forked("tools/draw", *words, given=images.encode())
    if status or errors:
        raise AssertionError(errors)
    return xml.fromstring(text)


def boxes(picture, kind):
    return [group for group in picture.iter(SVG + "g") if group.get("class") == kind]


def texts(element, *kinds):
    """The texts of these kinds, each without the longer one that it may show on a touch."""
    return [text.text for text in element.iter(SVG + "text") if text.get("class") in kinds]


def structure(element):
    """An element without its places on the page."""
    kept = element.get("class"), element.tag, (element.text or "").strip()
    return (*kept, [structure(child) for child in element])


def tree_of_height(height):
    """The replies of an image of this height in which each inner node has four children."""
    lines, count = [f"image primary height {height}"], [0]

    def add(depth):
        if depth == height - 1:
            lines.append(" " * 2 * depth + "leaf 1")
            lines.append(" " * (2 * depth + 2) + f"= {2**63 + count[0]:016x} {count[0]},x")
            count[0] += 1
            return
        lines.append(" " * 2 * depth + "inner 4 0")
        for child in range(4):
            if child:
                lines.append(" " * (2 * depth + 2) + f"| {2**63 + count[0]:016x}")
            add(depth + 1)

    add(0)
    return "\n".join([*lines, "end"]) + "\n", count[0]


def imported(path):
    """A program of the repository as a module."""
    sys.dont_write_bytecode = True
    name = Path(path).stem
    loader = SourceFileLoader(name, str(TOP / path))
    module = module_from_spec(spec_from_loader(name, loader))
    loader.exec_module(module)
    return module
