"""Tests of the program by crews: worked scripts, and those that a loop makes, by all crews; which threads a batch and a load start; and a deep tree on the
stack of a worker."""

import os
import subprocess
import tempfile
from functools import cache
from pathlib import Path
from typing import NamedTuple
from unittest import TestCase

from . import long_scripts
from .common import imported, output_of, PROGRAM, run, SECONDS, TOP, ProgramTestCase, needs

HERE = Path(__file__).resolve().parent
TABLE = "table 4 1 2 1 id:int qty:int"
INDEX = "index by_qty on qty\nbuild by_qty 1"
WORKER_STACK = 1 << 20  # bytes of a worker, who takes jobs from the queue; a thread of rayon has the stack that the C library gives


class Started(NamedTuple):
    """How many threads a run started: workers of the queue, and threads of rayon."""

    workers: int = 0
    of_rayon: int = 0


def record(*fields):
    """A record as the program writes it: a field with a comma, a double quote or a line break is in double quotes."""
    return ",".join('"' + field.replace('"', '""') + '"' if set(field) & set(',"\r\n') else field for field in fields)


@cache
def libraries():
    """A folder for the preloaded library, which goes with the process."""
    return tempfile.TemporaryDirectory()


def library_of_threads():
    """The preloaded library, which tells each thread's stack and lets it run to its end before it returns to the thread that started it."""
    path = Path(libraries().name) / "threads.so"
    if not path.exists():
        words = ["cc", "-std=c11", "-O1", "-Wall", "-Wextra", "-Werror", "-shared", "-fPIC", HERE / "c/threads.c", "-o", path]
        output_of(words)
    return path


def run_and_threads(test, script, workers):
    """The replies to a script by this many workers, with a cut and a grain of 1, and which threads were started."""
    words = [PROGRAM, "--workers", str(workers), "--cut", "1", "--grain", "1"]
    with tempfile.NamedTemporaryFile() as threads:
        settings = {"LD_PRELOAD": str(library_of_threads()), "THREADS_FILE": threads.name}
        ended = subprocess.run(words, input=script.encode(), capture_output=True, env={**os.environ, **settings}, timeout=SECONDS)
        stacks = [int(line) for line in threads.read().split()]
    test.assertEqual((ended.returncode, ended.stderr, set(stacks) - {0, WORKER_STACK}), (0, b"", set()))
    return ended.stdout.decode(), Started(stacks.count(WORKER_STACK), stacks.count(0))


def puts(keys):
    return "\n".join(["batch", *(f"put {key},{key}" for key in keys), "end", ""])


def halvings():
    """How many times rayon halves its work: until there are two parts for each processor that the program may use, but at most 64 parts."""
    processors = min(os.sysconf("SC_NPROCESSORS_ONLN"), len(os.sched_getaffinity(0)), 32)
    quota = Path("/sys/fs/cgroup/cpu.max")
    limit, period = quota.read_text().split() if quota.exists() else ("max", "1")
    processors = processors if limit == "max" else min(processors, max(1, int(limit) // int(period)))
    return (2 * processors).bit_length() - 1


def threads_for_pieces(count, depth):
    """How many threads rayon starts for this many pieces: one for each time that they are halved."""
    low = count // 2
    return 0 if count <= 1 or depth == 0 else 1 + threads_for_pieces(low, depth - 1) + threads_for_pieces(count - low, depth - 1)


def threads_to_type(records, workers):
    """Or to encode keys, in one piece for each worker, but of at least 1,024 records."""
    return threads_for_pieces(-(-records // max(1024, -(-records // workers))), halvings())


def load(*records, heads=(TABLE,)):
    return "\n".join([*heads, "load", "id,qty", *records, ".", ""])


class Crews(TestCase):
    def test_long_scripts_reach_what_they_are_made_for(self):
        """Seven levels, refusals far from the start of a load, and indexes that are complete only at the end, as the model says."""
        model = imported("tools/fuzz/model.py")
        replies = {lines.__name__: model.replies(long_scripts.script_of(lines)).decode().splitlines() for lines in long_scripts.ALL}
        heights = {name: max((int(line.split()[-1]) for line in lines if line.startswith("image primary ")), default=0) for name, lines in replies.items()}
        deep = ("deep_tree_of_upserts", "flush_through_seven_levels", "six_levels", "random_texts", "random_compound_keys")
        self.assertEqual([heights[name] for name in deep], [7, 7, 6, 6, 5])
        refused = {name: [line for line in lines if line.startswith("refused ")] for name, lines in replies.items()}
        self.assertEqual(refused.pop("load_of_many_records"), ["refused 6 BadField 1090", "refused 14 DuplicateKey 1030"])
        self.assertEqual(refused.pop("batches_in_ranges"), ["refused 6 BadField 16401"])
        self.assertEqual(refused.pop("batches_in_pieces"), ["refused 1 Syntax", "refused 1 Syntax", "refused 2 Unfinished"])
        self.assertEqual({name: lines for name, lines in refused.items() if lines}, {})
        built = [line for line in replies["built_between_batches"] if line.startswith("build ")]
        self.assertEqual((len(built), [line.endswith(" complete") for line in built[-3:]]), (10, [False, True, True]))


class CrewsWithProgram(ProgramTestCase):
    def test_worked_scripts_have_the_same_replies_by_all_crews(self):
        status, text, errors = run("tools/every_crew", "examples", "crates/test_scripts/data", seconds=1800)
        self.assertEqual((status, errors, text.splitlines()[-1].split(", ")[-1]), (0, "", "0 faults"))

    def test_long_scripts_have_the_replies_of_the_model_by_all_crews(self):
        model = imported("tools/fuzz/model.py")
        with tempfile.TemporaryDirectory() as folder:
            for lines in long_scripts.ALL:
                script = long_scripts.script_of(lines)
                (Path(folder) / lines.__name__).write_bytes(script)
                (Path(folder) / f"{lines.__name__}.stdout").write_bytes(model.replies(script))
            status, text, errors = run("tools/every_crew", folder, seconds=1800)
        count = len(long_scripts.ALL)
        self.assertEqual((status, errors, text.splitlines()[-1]), (0, "", f"{count} scripts, {30 * count} runs, 0 faults"))

    def test_long_scripts_are_flushed_in_pieces(self):
        """By crates/test_cuts, which cuts each flush at each depth, runs the jobs in both orders and by crews, and compares the tree with that of the whole
        flush."""
        program = TOP / "crates/test_cuts/out/test_cuts"
        if not program.exists():
            self.skipTest("crates/test_cuts is not built, which only the gate does (rt ci)")
        names = [lines.__name__ for lines in long_scripts.FOR_CUTS]
        with tempfile.TemporaryDirectory() as folder:
            for lines in long_scripts.FOR_CUTS:
                (Path(folder) / lines.__name__).write_bytes(long_scripts.script_of(lines))
            ended = subprocess.run([program, *names], cwd=folder, capture_output=True, text=True, timeout=SECONDS)
        self.assertEqual((ended.returncode, ended.stderr), (0, ""))
        self.assertEqual([line.split(":")[0] for line in ended.stdout.splitlines() if not line.startswith(" ")], names)
        self.assertIn("  cut at 6: /0/0/0/0/0/2 with 3, /0/1/3/0/0/1 with 2,\n", ended.stdout)

    def test_every_crew_finds_other_replies(self):
        with tempfile.TemporaryDirectory() as folder:
            (Path(folder) / "script").write_text("get 1\n")
            (Path(folder) / "script.stdout").write_text("none\n")
            status, text, errors = run("tools/every_crew", folder)
        self.assertEqual((status, errors, text.splitlines()[-1]), (1, "", "1 scripts, 30 runs, 30 faults"))

    def test_a_load_with_quotes_and_line_breaks_has_the_same_rows_by_all_crews(self):
        """Records that take several lines, blank lines, line ends of both kinds and byte order marks are at the ends of pieces, for all numbers of workers. The
        replies are computed here. In the last script a record of the last piece has one field too many, and one of the first piece a key that is repeated
        later. """
        kinds = ["plain", "with, comma", 'with "quotes"', "two\nlines", "three\r\nlines\n\n", "", '"', "\ufefftext"]
        rows = [(("\ufeff" if n % 5 == 0 else "") + f"key {n * 7 % 5000:04}", kinds[n % 8]) for n in range(5_000)]
        lines = [record(*row) if n % 3 else ",".join('"' + field.replace('"', '""') + '"' for field in row) for n, row in enumerate(rows)]
        text = "\ufeffname,text\r\n" + "".join(line + ("\n", "\r\n", "\n\n", "\r\n\r\n\n")[n % 4] for n, line in enumerate(lines))
        table = "table 4 8 4 1 name:text text:text"
        shown = "".join(f"row {record(*row)}\n" for row in sorted(rows, key=lambda row: row[0].encode()))
        scripts = {
            "loaded": (f"{table}\nload\n{text}.\nscan primary\ngo\n", f"table 2\nloaded 5000\n{shown}rows 5000\n"),
            "refused": (
                f"{table}\nload\n{text}{lines[17]}\n.\nload\n{text}{lines[17]}\na,b,c\n.\n",
                "table 2\nrefused 14 DuplicateKey 5001\nrefused 7 BadLength 5002\n",
            ),
        }
        with tempfile.TemporaryDirectory() as folder:
            for name, (script, replies) in scripts.items():
                (Path(folder) / name).write_bytes(script.encode())
                (Path(folder) / f"{name}.stdout").write_bytes(replies.encode())
            status, told, errors = run("tools/every_crew", folder)
        self.assertEqual((status, errors, told.splitlines()[-1]), (0, "", "2 scripts, 60 runs, 0 faults"))

    def test_pieces_of_a_batch_are_worked_by_two_threads(self):
        """Of a batch into an empty table. The caller starts one thread for the lines that it does not read itself, one to merge what both have sorted, and one to
        make leaves of a part of it. With an index there is one thread more for the entries, and one to merge these."""
        for heads, started in (([TABLE], 3), ([TABLE, INDEX], 5)):
            script = "\n".join([*heads, puts(range(2_000))])
            alone, none = run_and_threads(self, script, 1)
            by_two, some = run_and_threads(self, script, 2)
            self.assertEqual((by_two == alone, none, some), (True, Started(), Started(workers=started)))

    def test_a_batch_has_five_rounds_for_any_number_of_indexes(self):
        """Each round of two workers starts one thread: one round reads the lines, one merges them, two make the packets of all indexes, and one flushes all
        trees. Without an index the middle two are left out."""
        for indexes, rounds in ((0, 3), (1, 5), (3, 5), (16, 5)):
            with self.subTest(indexes=indexes):
                heads = [f"index i{place} on qty\nbuild i{place} 100000" for place in range(indexes)]
                before = [TABLE, puts(range(0, 4_000, 2)), *heads]
                _, some = run_and_threads(self, "\n".join([*before, ""]), 2)
                _, more = run_and_threads(self, "\n".join([*before, puts(range(1, 4_000, 2))]), 2)
                self.assertEqual((more.workers - some.workers, more.of_rayon), (rounds, 0))

    def test_a_load_by_four_workers_starts_threads_of_rayon_and_by_one_none(self):
        """Of 100,000 records. If their keys rise, threads are started to type the records and to encode the keys. If not, rayon also sorts, for which it starts
        at most one thread less than there are parts."""
        records = [f"{row},{row}" for row in range(100_000)]
        least = 2 * threads_to_type(len(records), 4)
        for given, extra in ((records, range(1)), (records[::-1], range(1, 2 ** halvings()))):
            alone, none = run_and_threads(self, load(*given), 1)
            by_four, some = run_and_threads(self, load(*given), 4)
            self.assertEqual((alone.split("\n")[1], none, by_four == alone, some.workers), ("loaded 100000", Started(), True, 0))
            self.assertEqual((least > 1, some.of_rayon - least in extra, some), (True, True, some))

    def test_a_batch_by_four_workers_starts_workers_of_the_queue_and_by_one_none(self):
        """Of 2,000 lines into an empty table: three workers read lines with the caller, three merge what the four have sorted, and three make leaves of it."""
        script = f"{TABLE}\n{puts(range(2_000))}"
        alone, none = run_and_threads(self, script, 1)
        by_four, some = run_and_threads(self, script, 4)
        self.assertEqual((none, by_four == alone, some), (Started(), True, Started(workers=9)))

    def test_a_load_is_typed_and_sorted_by_as_many_pieces_as_workers(self):
        """Records are typed, keys encoded and entries of the index made in such pieces, and keys and entries sorted. A record whose key an earlier one has is
        named after the first sort. No key is encoded if a record cannot be read, not even by another worker."""
        rows = [f"{row * 7919 % 10_007},{row}" for row in range(10_000)]
        twice = [*rows, rows[17]]
        unreadable = [*rows, "x,1", *rows, "7"]
        for records, reply, steps, sorts in (
            (rows, "loaded 10000", 3, 2), (twice, "refused 14 DuplicateKey 10001", 2, 1), (unreadable, "refused 6 BadField 10001", 1, 0),
        ):  # fmt: skip
            script = load(*records, heads=(TABLE, INDEX))
            alone, none = run_and_threads(self, script, 1)
            self.assertEqual((alone.split("\n")[3], none), (reply, Started()))
            for workers in (2, 3, 5):
                replies, some = run_and_threads(self, script, workers)
                extra = some.of_rayon - steps * threads_to_type(len(records), workers)
                self.assertEqual((replies == alone, workers, some.workers, sorts <= extra <= sorts * (2 ** halvings() - 1)), (True, workers, 0, True))

    def test_a_worker_goes_down_a_deep_tree(self):
        """Rows by falling keys, each in a batch of its own, make a tree of ten levels, and then a message goes down to each row. The started thread takes all
        the jobs, so what a job needs of the stack below the root is on the worker's."""
        rows = range(2_000, 0, -1)
        script = "\n".join([TABLE, *(puts([row]) for row in rows), puts(rows), "drain primary", "image primary", ""])
        alone, none = run_and_threads(self, script, 1)
        by_two, some = run_and_threads(self, script, 2)
        self.assertIn("\nimage primary height 10\n", alone)
        self.assertEqual((by_two == alone, none, some.workers > 0), (True, Started(), True))

    @needs("valgrind")
    def test_a_crew_frees_what_it_takes(self):
        """No clause says that a value is freed. Under memcheck no block is left at the end that nothing reaches, after batches, steps of building, a drain,
        scans and sums by two workers."""
        reads = "scan by_qty\ngo\nsums primary 1 qty\nto 9\ngo\ndrain primary\nscan primary\nfrom 990\ngo\n"
        script = "\n".join([TABLE, puts(range(1_000)), INDEX, puts(range(0, 1_000, 3)), reads])
        words = ["valgrind", "--quiet", "--fair-sched=yes", "--leak-check=full", "--show-leak-kinds=definite,indirect,possible", "--error-exitcode=9"]
        program = [PROGRAM, "--workers", "2", "--cut", "1", "--grain", "1"]
        alone, _ = run_and_threads(self, script, 1)
        ended = subprocess.run([*words, *program], input=script.encode(), capture_output=True, timeout=SECONDS)
        self.assertEqual((ended.returncode, ended.stderr.decode(), ended.stdout.decode() == alone), (0, "", True))
