"""Tests of a durable table that several threads use, with the extension and without it."""

import itertools
import os
import signal
import threading
import time
from contextlib import contextmanager
from unittest import TestCase

from .clients import library
from .common import SECONDS, fault_of
from .durable import ADD, INDEXED, TABLE, durable, expect_fault, folder, probe, run_python


def setUpModule():
    library()


@contextmanager
def started(*works):
    """Threads that run works. At the end of the context they have ended, and each fault of theirs is raised."""
    faults = []
    threads = [threading.Thread(target=lambda work=work: faults.append(fault_of(work)), daemon=True) for work in works]
    for thread in threads:
        thread.start()
    yield threads
    for thread in threads:
        thread.join(SECONDS)
        if thread.is_alive():
            raise AssertionError("a thread does not end")
    for fault in faults:
        if fault is not None:
            raise fault


WAIT = 0.02  # seconds in which a call would be done that does not wait


def start_and_wait(thread, done=()):
    """Starts a thread, and gives it time, unless it is done."""
    thread.start()
    begin = time.monotonic()
    while not done and time.monotonic() < begin + WAIT:
        time.sleep(0.001)


class Threads(TestCase):
    def test_calls_of_several_threads_are_those_of_one_after_the_other(self):
        """Each has its own rows and reads them. The file gives the same table again, node by node."""
        with folder() as path:
            with durable().open(path / "t") as table:
                table.run(INDEXED.replace("index building on qty\n", ""))

                def work(name):
                    for number in range(40):
                        key = name * 1_000 + number
                        table.put([(key, "abc"[number % 3], number), (key + 500, "d", 1)], most=1)
                        self.assertEqual(table.once(f"{key}", f"batch\nups {key},add,qty,1\nend\n"), b"batch 1 by_city:1\n")
                        self.assertEqual(table.get(key), (key, "abc"[number % 3], number + 1))
                        self.assertEqual(len(list(table.iterate("primary", (name * 1_000,), (name * 1_000 + 500,), page=7))), number + 1)
                        if number % 10 == 7:
                            table.checkpoint()
                        if number % 10 == 3:
                            with table.group():
                                table.upsert(key, add={"qty": 2})
                                self.assertEqual(len(table.scan("primary", (key,), limit=1)), 1)
                                table.upsert(key, add={"qty": -2})

                with started(*[lambda name=name: work(name) for name in range(6)]):
                    pass
                self.assertEqual((len(table.scan()), table.sums("by_city", 1, "qty")[-1][:2]), (480, (240, 240)))
                self.assertEqual(table.checkpoint_count, 24)
                wanted = probe(table)
            with durable().open(path / "t") as table:
                self.assertEqual(probe(table), wanted)

    def test_a_group_belongs_to_its_thread(self):
        """Calls of other threads wait until it ends, and are not undone with it."""
        with folder() as path, durable().open(path / "t") as table:
            table.run(TABLE)
            found = []

            def other():
                found.append(table.scan())
                table.put([(2, "other", 1)])

            thread = threading.Thread(target=other, daemon=True)

            def rolled_back():
                with table.group():
                    table.put([(1, "group", 1)])
                    start_and_wait(thread, found)
                    self.assertEqual((found, table.scan()), ([], [(1, "group", 1)]))
                    raise KeyError

            expect_fault(self, KeyError, rolled_back)
            thread.join(SECONDS)
            self.assertEqual((found, table.scan(), table.number), ([[]], [(2, "other", 1)], 2))

    def test_each_call_waits_for_a_group(self):
        with folder() as path, durable().open(path / "t") as table:
            table.run(TABLE + ADD)

            def in_group():
                with table.group():
                    table.get(1)

            calls = [
                lambda: table.replies(ADD), lambda: table.run("get 1\n"), lambda: table.get(1), table.scan, lambda: next(table.iterate()), table.columns,
                lambda: table.put([(5, "", 1)]), lambda: table.put([{"id": 6, "city": "", "qty": 1}]), lambda: table.once("a", ADD), table.checkpoint,
                lambda: table.backup(path / "copy"), lambda: table.is_lost, table.usage, table.trees, lambda: table.sums("primary", 0, ""),
                in_group, lambda: table.delete_range("primary"), table.close,
            ]  # fmt: skip
            for number, call in enumerate(calls):
                with self.subTest(number=number):
                    done = []
                    other = threading.Thread(target=lambda: (call(), done.append(number)), daemon=True)
                    with table.group():
                        start_and_wait(other, done)
                        self.assertEqual(done, [])
                    other.join(SECONDS)
                    self.assertEqual(done, [number])

    def test_a_get_waits_for_a_call_of_the_library(self):
        """And gets the state after it. No group is open then."""
        with folder() as path, durable().open(path / "t") as table:
            table.run(TABLE + ADD)
            done = []
            other = threading.Thread(target=lambda: done.append(table.get(1)), daemon=True)
            real = table._bytes._library

            class Library:
                def __getattr__(self, name):
                    return getattr(real, name)

                def exchange(self, *given):
                    start_and_wait(other, done)
                    return real.exchange(*given)

            table._bytes._library = Library()
            table.put([(1, "put", 5)])
            other.join(SECONDS)
            self.assertEqual(done, [(1, "put", 5)])

    def test_a_call_in_a_call_of_its_own_thread_is_refused(self):
        """As by an object that is collected meanwhile."""
        with folder() as path, durable().open(path / "t") as table:
            table.run(TABLE + ADD)
            if not hasattr(table._lock, "hold"):
                self.skipTest("the extension is not built")
            with table._lock:
                for call in (lambda: table.get(1), lambda: table.put([(1, "", 1)]), lambda: table.replies(ADD)):
                    expect_fault(self, RuntimeError, call, "in a call of this thread")
            self.assertEqual(table.get(1), (1, "", 1))

    def test_a_call_that_waits_can_be_interrupted(self):
        """By a signal. It has done nothing, and the table can be used."""
        with folder() as path, durable().open(path / "t") as table:
            table.run(TABLE + ADD)
            begun, ended = threading.Event(), threading.Event()

            def in_group():
                with table.group():
                    begun.set()
                    ended.wait(SECONDS)

            def interrupted(*_):
                raise KeyError

            before = signal.signal(signal.SIGALRM, interrupted)
            try:
                with started(in_group):
                    begun.wait(SECONDS)
                    for call in (lambda: table.get(1), lambda: table.replies(ADD), lambda: table.put([(1, "", 1)])):
                        signal.setitimer(signal.ITIMER_REAL, WAIT)
                        expect_fault(self, KeyError, call)
                    ended.set()
            finally:
                signal.signal(signal.SIGALRM, before)
            self.assertEqual((table.get(1), table.replies(ADD), table.number), ((1, "", 1), b"batch 1\n", 2))

    def test_without_the_extension_calls_wait_too(self):
        text = """import sys, threading, time, warnings
warnings.simplefilter("ignore"); sys.modules["betable._packed"] = None
from betable import durable
with durable.open(sys.argv[1]) as table:
    table.table("id:int qty:int")
    def work(name):
        for number in range(100): table.put([(1000 * name + number, 1)])
    threads = [threading.Thread(target=work, args=(name,)) for name in range(4)]
    with table.group():
        for thread in threads: thread.start()
        table.put([(7000, 7)]); time.sleep(0.02); print(table.count())
    for thread in threads: thread.join()
    print(table.count(), table.number, hasattr(table, "_pack_rows"))"""
        with folder() as path:
            self.assertEqual(run_python(text, path / "t"), (0, "1\n401 402 False\n"))

    def test_an_iterator_goes_from_thread_to_thread(self):
        with folder() as path, durable().open(path / "t") as table:
            table.run(TABLE)
            table.put([(number, "", 0) for number in range(20)])
            rows = table.iterate(page=3)
            found = [next(rows)]
            with started(lambda: found.extend(itertools.islice(rows, 8))):
                pass
            self.assertEqual([row[0] for row in found + list(rows)], list(range(20)))

    def test_a_table_that_another_thread_has_closed_is_closed(self):
        with folder() as path:
            table = durable().open(path / "t")
            table.run(TABLE)
            other = threading.Thread(target=table.close, daemon=True)
            with table.group():
                table.replies(ADD)
                start_and_wait(other)
            other.join(SECONDS)
            for call in (lambda: table.get(1), lambda: table.replies(ADD), lambda: table.group().__enter__()):
                expect_fault(self, ValueError, call, "closed")
            with durable().open(path / "t") as table:
                self.assertEqual(table.get(1), (1, "", 1))

    def test_a_child_does_not_wait_for_a_thread_of_its_parent(self):
        with folder() as path, durable().open(path / "t") as table:
            table.run(TABLE)
            begun, ended = threading.Event(), threading.Event()

            def in_group():
                with table.group():
                    table.replies(ADD)
                    begun.set()
                    ended.wait(SECONDS)

            with started(in_group):
                begun.wait(SECONDS)
                child = os.fork()
                if child == 0:
                    found = [type(fault_of(call)) for call in (lambda: table.get(1), lambda: table.replies(ADD), table.trees)]
                    table.close()
                    os._exit(found != [RuntimeError] * 3)
                self.assertEqual(os.waitstatus_to_exitcode(os.waitpid(child, 0)[1]), 0)
                ended.set()
            self.assertEqual((table.number, table.get(1)), (2, (1, "", 1)))

    def test_a_backup_is_made_while_other_threads_write(self):
        """It is the table between two commits."""
        with folder() as path, durable().open(path / "t") as table:
            table.run(TABLE)
            has_ended = threading.Event()

            def write(name):
                for number in itertools.count():
                    table.put([(name * 1_000_000 + number, "x" * 200, number)])
                    if has_ended.is_set():
                        return

            with started(lambda: write(0), lambda: write(1)):
                for number in range(5):
                    before = table.number
                    table.backup(path / f"{number}")
                    with durable().open(path / f"{number}") as copied:
                        rows = copied.scan()
                        self.assertTrue(before <= len(rows) + 1 <= table.number)
                        for name in (0, 1):
                            keys = [row[0] - name * 1_000_000 for row in rows if row[0] // 1_000_000 == name]
                            self.assertEqual(keys, list(range(len(keys))))
                has_ended.set()
