"""Tests of bin/package, of the record of the gate that it asks for, and of what it packs: on copies of this repository that are commits of their own, with the
program and the library that are built. They are skipped where something that
they need is not installed."""

import os
import shlex
import shutil
import subprocess
import sys
import tempfile
import time
import urllib.error
import urllib.request
from collections.abc import Callable
from functools import cache
from pathlib import Path
from unittest import SkipTest

from .clients import library
from .common import build_program, imported, PROGRAM, TOP, ProgramTestCase, needs

LONG = 3_600  # seconds within which packages and a Debian have to be made, also on a busy machine
ENGINE = "crates/betable_engine/out/betable_engine"
NEEDED = ("git", "gcc", "dpkg-deb", "objdump")
COMMIT_TIME = "1750000000 +0000"
RECORD = "rattle-kit-13f logic dac8208d650f15bf", "7 passed, 0 failed"


def skip_without_what_packs() -> None:
    """Skips the tests if something that bin/package needs is not installed, or if this is no checkout."""
    if not (TOP / ".git").exists():
        raise SkipTest("this is no git checkout")
    code = "import setuptools, wheel, pip, sysconfig; open(sysconfig.get_path('include') + '/Python.h')"
    if subprocess.run(["/usr/bin/python3", "-c", code], capture_output=True).returncode:
        raise SkipTest("pip, setuptools, wheel and the headers of Python are not installed for /usr/bin/python3")
    for tool in NEEDED:
        if not shutil.which(tool):
            raise SkipTest(f"{tool} is not installed")
    if not (TOP / ENGINE).exists():
        raise SkipTest("the program betable_engine is not built")


def git(folder: Path, *words: str) -> str:
    values = {"NAME": "a", "EMAIL": "a@example.org", "DATE": COMMIT_TIME}
    names = {f"GIT_{who}_{what}": value for who in ("AUTHOR", "COMMITTER") for what, value in values.items()}
    environment = {**os.environ, **names, "GIT_CONFIG_GLOBAL": os.devnull}
    return subprocess.run(["git", *words], cwd=folder, check=True, capture_output=True, text=True, env=environment).stdout.strip()


def copy_of_the_repository(folder: Path, changes: dict[str, str] | None = None) -> Path:
    """This repository as it is now, except for the texts of `changes`, as a commit, with the program and the library."""
    top = folder / "betable"
    for name in git(TOP, "ls-files", "-z", "--cached", "--others", "--exclude-standard").split("\0"):
        if name and (TOP / name).exists():
            (top / name).parent.mkdir(parents=True, exist_ok=True)
            shutil.copy2(TOP / name, top / name, follow_symlinks=False)
    for name, text in (changes or {}).items():
        (top / name).write_text(text)
    git(top, "init", "--quiet", "--initial-branch=main")
    git(top, "add", "--all")
    git(top, "commit", "--quiet", "--message=A state")
    built = [(PROGRAM, "crates/betable/out/betable"), *((Path(library()) / name, f"out/{name}") for name in ("libbt_c.a", "libbt_c.so"))]
    for source, target in (*built, (TOP / ENGINE, ENGINE)):
        (top / target).parent.mkdir(parents=True, exist_ok=True)
        shutil.copy(source, top / target)
    return top


def record(top: Path, commit: str | None = None, last_line: str = RECORD[1]) -> None:
    (top / "out/gate").write_text("\n".join([commit or git(top, "rev-parse", "HEAD"), RECORD[0], last_line, ""]))


def package(top: Path, **environment: str) -> tuple[int, str, str]:
    """How bin/package of a copy ended, and what it printed."""
    ended = subprocess.run([top / "bin/package"], capture_output=True, text=True, env={**os.environ, **environment}, timeout=LONG)
    return ended.returncode, ended.stdout, ended.stderr


@cache
def folder_of_the_process() -> tempfile.TemporaryDirectory[str]:
    """A folder that goes with the process."""
    return tempfile.TemporaryDirectory()


@cache
def packages() -> Path:
    """The folder with the packages of this repository as it is now."""
    skip_without_what_packs()
    build_program()
    top = copy_of_the_repository(Path(folder_of_the_process().name))
    record(top)
    status, text, errors = package(top)
    if (status, errors, [line.split("/")[0] for line in text.splitlines()]) != (0, "", ["dist"] * 5):
        raise AssertionError((status, text, errors))
    return top / "dist"


# ---- the record of the gate, and what bin/package refuses ----


def setUpModule() -> None:
    packages()


class Record(ProgramTestCase):
    def test_bin_test_records_the_commit_that_it_tested(self) -> None:
        """With a gate and tests of tools that only print their last line."""
        cases = [("2 passed, 0 failed", False, "5 passed, 0 failed"), ("1 passed, 1 failed", False, "4 passed, 1 failed"), ("2 passed, 0 failed", True, None)]
        for last_line, changed, wanted in cases:
            with tempfile.TemporaryDirectory() as folder:
                top = copy_of_the_repository(Path(folder), {"tools/test": f"#!/bin/sh\necho {last_line}\n"})
                (Path(folder) / "rt").write_text('#!/bin/sh\n[ "$1" = ci ] && echo 3 passed, 0 failed || echo a kit\n')
                (Path(folder) / "rt").chmod(0o755)
                record(top)
                if changed:
                    (top / "README.md").write_text("other words\n")
                ended = subprocess.run([top / "bin/test"], capture_output=True, text=True, env={**os.environ, "PATH": f"{folder}:{os.environ['PATH']}"})
                self.assertEqual(ended.returncode, 1 if "1 failed" in last_line else 0)
                gate = top / "out/gate"
                self.assertEqual(gate.read_text().splitlines() if gate.exists() else None, wanted and [git(top, "rev-parse", "HEAD"), "a kit", wanted])

    def test_nothing_is_packed_without_its_proof(self) -> None:
        with tempfile.TemporaryDirectory() as folder:
            top = copy_of_the_repository(Path(folder))
            new = time.time() + 100

            def refused(reason: str) -> None:
                status, text, errors = package(top)
                self.assertEqual((status, text, (top / "dist").exists()), (1, "", False))
                self.assertIn(f"package: {reason}", errors)
                self.assertEqual(len(errors.splitlines()), 1)

            refused("there is no out/gate: bin/test of this commit writes it")
            record(top, commit="1" * 40)
            refused("out/gate is of commit 11111111, and this is ")
            for last_line in ("7 passed, 1 failed", "0 passed, 0 failed", "rt: not found"):
                record(top, last_line=last_line)
                refused(f"the gate of this commit did not pass: {last_line}")
            (top / "out/gate").write_text("7 passed, 0 failed\n")
            refused("out/gate is not a record of bin/test: run it")
            record(top)
            (top / "notes").write_text("")
            refused("the checkout has changes, as of notes: commit them, and run bin/test")
            (top / "notes").unlink()
            (top / "VERSION").write_text("9.9.9\n")
            refused("the checkout has changes, as of VERSION")
            git(top, "checkout", "VERSION")
            source = next((top / "crates/bt_node/src").rglob("*.rt"))
            program = top / "crates/betable/out/betable"
            for changed in (source, source.parent, top / "crates.txt"):
                before, built = changed.stat().st_mtime, program.stat().st_mtime
                os.utime(changed, (new, new))
                refused(f"crates/betable/out/betable is older than {changed.relative_to(top)}: bin/betable builds it again")
                os.utime(program, (new, new))
                refused(f"out/libbt_c.a is older than {changed.relative_to(top)}: bin/build_c builds it again")
                os.utime(changed, (before, before))
                os.utime(program, (built, built))
            (top / "out/libbt_c.so").unlink()
            refused("there is no out/libbt_c.so: bin/build_c builds it")
            program.unlink()
            refused("there is no crates/betable/out/betable: bin/betable builds it")

    def test_packages_are_the_same_if_they_are_made_again(self) -> None:
        """In another folder, with other rights and times of the files, another time zone and another language."""
        first = packages()
        if first is None:
            return
        with tempfile.TemporaryDirectory(prefix="a folder with a longer name ") as folder:
            top = copy_of_the_repository(Path(folder))
            for path in git(top, "ls-files").splitlines():
                if not (top / path).is_symlink():
                    (top / path).chmod((top / path).stat().st_mode & 0o700)
                    os.utime(top / path, (1_000_000_000, 1_000_000_000))
            record(top)
            self.assertEqual(package(top, TZ="Asia/Tokyo", LC_ALL="C", PYTHONHASHSEED="7")[0], 0)
            names = sorted(path.name for path in first.iterdir())
            self.assertEqual(sorted(path.name for path in (top / "dist").iterdir()), names)
            self.assertEqual([name for name in names if (first / name).read_bytes() != (top / "dist" / name).read_bytes()], [])


# ---- what the packages say ----


class Contents(ProgramTestCase):
    def test_proved_and_sums_are_those_of_the_packages(self) -> None:
        dist = packages()
        checked = subprocess.run(["sha256sum", "--check", "--quiet", "SHA256SUMS"], cwd=dist, capture_output=True, text=True)
        self.assertEqual((checked.returncode, checked.stdout, checked.stderr), (0, "", ""))
        self.assertEqual(len((dist / "SHA256SUMS").read_text().splitlines()), 3)
        proved = (dist / "PROVED").read_text()
        commit = git(dist.parent, "rev-parse", "HEAD")
        for part in (f"commit     {commit} of 2025-06-15\n", f"toolchain  {RECORD[0]}\n", f"gate       {RECORD[1]}\n", f"git checkout {commit} && bin/test"):
            self.assertIn(part, proved)
        for path in (PROGRAM, Path(library()) / "libbt_c.a", Path(library()) / "libbt_c.so"):
            sums = subprocess.run(["sha256sum", path], capture_output=True, text=True).stdout.split()[0]
            self.assertIn(f" {sums}  {path.name}\n", proved)

    def test_the_debian_package_is_root_s(self) -> None:
        dist = packages()
        path = next(dist.glob("*.deb"))
        files = subprocess.run(["dpkg-deb", "--contents", path], capture_output=True, text=True, check=True).stdout.splitlines()
        self.assertEqual((len(files) > 80, [line for line in files if line.split()[1] != "root/root"]), (True, []))

    @needs("lintian")
    def test_lintian_finds_no_error_in_the_debian_package(self) -> None:
        words = ["lintian", "--fail-on", "error", str(next(packages().glob("*.deb")))]
        told = subprocess.run(words, capture_output=True, text=True, timeout=LONG)
        self.assertEqual((told.returncode, [line for line in told.stdout.splitlines() if line.startswith("E:")]), (0, []))


# ---- packages on this machine, and in a clean one ----


class Folder:
    """A folder in which lines of shell run without the variables that lead to this repository."""

    def __init__(self, folder: str) -> None:
        self.folder = Path(folder)
        names = ("BETABLE_LIBRARY", "PYTHONPATH", "PKG_CONFIG_PATH", "CARGO_TARGET_DIR", "SOURCE_DATE_EPOCH")
        self.environment = {name: value for name, value in os.environ.items() if name not in names}

    def output(self, lines: str) -> str:
        return str(imported("tools/package_test").output_of(["sh", "-c", f"set -e; {lines}"], self.folder, self.environment))

    def write(self, name: str, data: bytes) -> None:
        (self.folder / name).write_bytes(data)

    def text(self, path: str) -> str:
        return Path(path).read_text()


def is_reachable(url: str) -> bool:
    try:
        with urllib.request.urlopen(url, timeout=20):
            return True
    except (urllib.error.URLError, OSError):
        return False


class Tries(ProgramTestCase):
    def test_the_tarball_works_in_any_folder(self) -> None:
        dist = packages()
        tried = imported("tools/package_test")
        with tempfile.TemporaryDirectory() as folder:
            place = Folder(folder)
            tarball = shlex.quote(str(next(dist.glob("*.tar.gz"))))
            prefix = place.output(f"mkdir first moved && tar -xzf {tarball} -C first && mv first/* moved/ && echo $PWD/moved/*").strip()
            steps: list[tuple[str, Callable[..., None]]] = [
                ("sh", tried.words_of_the_command_line),
                ("sh", tried.lines_of_the_readme),
                ("man", tried.manual_page),
                ("pkg-config", tried.program_in_c),
                ("pkg-config", tried.examples_of_the_manual_page),
                ("cargo", tried.program_in_rust),
            ]
            for tool, step in steps:
                with self.subTest(step=step.__name__):
                    if not shutil.which(tool):
                        self.skipTest(f"{tool} is not installed")
                    step(tried.WithPkgConfig(place, prefix), prefix)
            with self.subTest(step="completion_in_bash"):
                if not Path("/usr/share/bash-completion/bash_completion").exists():
                    self.skipTest("bash-completion is not installed")
                tried.completion_in_bash(place, prefix)
            page = (TOP / "docs/PYTHON.md").read_text()
            tried.program_in_python(place, page, f"PYTHONPATH={prefix}/share/betable/clients/python {sys.executable}")

    def test_the_wheel_works_in_a_new_environment(self) -> None:
        dist = packages()
        if subprocess.run([sys.executable, "-c", "import ensurepip, venv"], capture_output=True).returncode:
            self.skipTest("no virtual environment can be made")
        with tempfile.TemporaryDirectory() as folder:
            wheel = shlex.quote(str(next(dist.glob("*.whl"))))
            imported("tools/package_test").the_wheel(Folder(folder), wheel, (TOP / "docs/PYTHON.md").read_text(), (TOP / "VERSION").read_text())

    @needs("debootstrap")
    def test_packages_work_in_a_clean_debian(self) -> None:
        """By debootstrap, as root, and with an archive of Debian."""
        dist = packages()
        mirror = imported("tools/package_test").MIRROR
        if os.geteuid() != 0 or not is_reachable(f"{mirror}/dists/bookworm/Release"):
            self.skipTest(f"not root, or {mirror} does not reply")
        ended = subprocess.run([TOP / "tools/package_test", dist], capture_output=True, text=True, timeout=LONG)
        self.assertEqual((ended.returncode, ended.stderr), (0, ""))
