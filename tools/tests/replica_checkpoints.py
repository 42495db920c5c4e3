"""Tests of the checkpoints that replicas write by themselves, over a log in this process. server_logs.py has them over Redis and PostgreSQL."""

import logging
import random
from contextlib import ExitStack, contextmanager
from unittest import TestCase

from .common import type_of_fault
from .layers import INDEX, TABLE, Log, betable, interrupt, raised, setUpModule  # noqa: F401

IMAGES = "image primary\nimage c\nscan c\ngo\n"


def opened(log, checkpoint_bytes=1_000, **options):
    return betable().cluster.Replicas(log, checkpoint_bytes=checkpoint_bytes, **options)


def fill(table, count, start=0):
    for number in range(start, start + count):
        table.put([(number, "x" * 50, number)])


def size(entries):
    return sum(len(entry.script) for entry in entries)


def size_to_replay(log):
    return size(log.scripts[log.kept.position if log.kept else 0 :])


def rebuilds(log):
    return [entry.position for entry in log.scripts if entry.script.startswith(b"rebuild ")]


@contextmanager
def notices():
    """The lines that the logger of replicas is given."""
    lines = []
    handler = logging.Handler()
    handler.emit = lambda record: lines.append(record.getMessage())
    logger = logging.getLogger("betable.cluster")
    logger.addHandler(handler)
    logger.propagate = False
    try:
        yield lines
    finally:
        logger.removeHandler(handler)
        logger.propagate = True


class Failing(Log):
    """A log whose call of a name fails while there is a `fault`, or its call of append with the first or the second script of a checkpoint; `tried` counts
    these calls."""

    def __init__(self, name, fault):
        super().__init__()
        self.name, self.fault, self.tried = name, fault, 0
        if name not in ("first", "second"):
            call = getattr(self, name)
            setattr(self, name, lambda *given: self.fail() or call(*given))

    def fail(self):
        if self.fault:
            self.tried += 1
            raise self.fault

    def append(self, request_id, script, position, chain, engine):
        if request_id.startswith(betable().cluster.replicas.CHECKPOINT_ID) and self.name == ("second" if script else "first"):
            self.fail()
        return super().append(request_id, script, position, chain, engine)


class ReplicaCheckpoints(TestCase):
    def test_replicas_reply_as_a_session_that_rebuilds_at_their_checkpoints(self):
        """Whenever what a new replica would run is longer than the limit and than the last checkpoint, the call has written one, and the log is trimmed to
        the one before it."""
        log, dice, replies, counts = Log(), random.Random(7), {}, []
        with ExitStack() as stack:
            replicas = [stack.enter_context(opened(log)) for _ in range(3)]
            replicas[0].run(TABLE + INDEX)
            kept = [None]
            for number in range(600):
                before, largest = size_to_replay(log), max(1_000, log.checkpoint_bytes())
                script = f"batch\nput {dice.randrange(60)},{'x' * dice.randrange(9)},{number}\nups 1,add,qty,1\nend\nget 1\n"
                replies[str(number)] = dice.choice(replicas).once(str(number), script)
                if before + len(script) > largest:
                    self.assertNotEqual(log.kept, kept[-1])
                    self.assertEqual((log.kept.position, size_to_replay(log)), (len(log.scripts), 0))
                    self.assertEqual(log.trimmed, kept[-1].position if kept[-1] else 0)
                    kept.append(log.kept)
                else:
                    self.assertEqual((log.kept, size_to_replay(log)), (kept[-1], before + len(script)))
                # Twice the limit, as it is when the last checkpoint is written, and what checkpoints themselves append.
                self.assertLess(size(log.scripts[log.trimmed :]), 2 * max(1_000, log.checkpoint_bytes()) + 400)
            self.assertGreater(len(kept), 4)
            self.assertGreater(log.checkpoint_bytes(), 1_000)
            # Checkpoints are no larger than all logs, but for the last one.
            self.assertGreater(size(log.scripts), sum(len(one.text) for one in kept[1:-1]))
            self.assertEqual(rebuilds(log), [one.position for one in kept[1:]])
            counts = [one.checkpoint_count for one in replicas]
            self.assertEqual((sum(counts), max(counts) < sum(counts), {one.checkpoint_fault for one in replicas}), (len(kept) - 1, True, {None}))
            with betable().Session() as session:
                for entry in log.scripts:
                    reply = session.replies(entry.script)
                    self.assertEqual(replies.get(entry.request_id, reply), reply)
                for one in replicas:
                    self.assertEqual(one.replies(IMAGES), session.replies(IMAGES))

    def test_a_replica_that_joins_begins_with_the_checkpoint(self):
        """It runs what came after it, and counts that, so that it writes the next checkpoint where the others would."""
        log = Log()
        with opened(log) as one:
            one.run(TABLE + INDEX)
            fill(one, 40)
            self.assertGreater((log.trimmed, one.checkpoint_count), (0, 1))
            fill(one, 2, 40)
            first, asked = log.kept.position + 1, []
            log.entries = lambda begin, end: asked.append(begin) or Log.entries(log, begin, end)
            with opened(log) as two:
                self.assertEqual((min(asked), two.position, two.replies(IMAGES)), (first, one.position, one.replies(IMAGES)))
                while two.checkpoint_count == 0:
                    before = size_to_replay(log)
                    fill(two, 1, two.position)
                self.assertLessEqual(before, max(1_000, log.checkpoint_bytes()))
                self.assertEqual((log.kept.position, one.replies(IMAGES)), (len(log.scripts), two.replies(IMAGES)))

    def test_one_of_several_replicas_writes_the_checkpoint(self):
        """Both see at once that it is due. The one whose empty script comes second leaves it to the other."""

        class Racing(Log):
            between = None

            def append(self, request_id, script, position, chain, engine):
                if not script and self.between:
                    call, self.between = self.between, None
                    call()
                return super().append(request_id, script, position, chain, engine)

        log = Racing()
        with opened(log) as one, opened(log) as two:
            one.run(TABLE + INDEX)
            log.between = lambda: fill(two, 1, 100)
            fill(one, 20)
            self.assertEqual((log.between, one.checkpoint_count, two.checkpoint_count, len(rebuilds(log))), (None, 0, 1, 1))
            self.assertEqual((one.checkpoint_fault, [entry.script for entry in log.scripts].count(b"")), (None, 2))
            fill(one, 40, 20)
            self.assertEqual((one.checkpoint_count, len(rebuilds(log)), one.replies(IMAGES)), (1, 2, two.replies(IMAGES)))

    def test_the_checkpoint_of_a_replica_that_ended_is_written_by_another(self):
        """The replica has said that it writes it. The next one is due when the log has grown by as much again."""
        log = Log()
        with opened(log) as two:
            one = opened(log)
            one.run(TABLE)
            one.checkpoint = interrupt
            raised(KeyboardInterrupt, lambda: fill(one, 100))
            one.close()
            begun = len(log.scripts)
            self.assertEqual((log.scripts[-1].script, log.kept), (b"", None))
            number = begun
            while two.checkpoint_count == 0:
                self.assertLessEqual(size(log.scripts[begun:]), 1_000)
                fill(two, 1, number)
                number += 1
            self.assertEqual((size_to_replay(log), len(two.scan())), (0, number - 2))

    def test_a_checkpoint_that_fails_fails_no_call(self):
        """At each call of the log that it makes. It is tried once, is told, and is tried again when the log has grown by as much again."""
        unreachable = betable().cluster.Unreachable("the server is away")
        for name in ("checkpoint_bytes", "first", "trim", "second", "keep"):
            log = Failing(name, unreachable)
            with self.subTest(name=name), notices() as told, opened(log) as one, betable().Session() as session:
                one.run(TABLE + INDEX)
                number = 0
                while one.checkpoint_fault is None:
                    self.assertEqual(one.put([(number, "x" * 50, number)]), 1)
                    number += 1
                self.assertEqual((log.tried, len(told), one.checkpoint_count, log.kept), (1, 1, 0, None))
                self.assertIn("server is away", told[0])
                self.assertEqual((one.get(number - 1), one.is_lost), ((number - 1, "x" * 50, number - 1), False))
                failed = len(log.scripts)
                while log.tried == 1:
                    self.assertLessEqual(size(log.scripts[failed:]), 1_000)
                    fill(one, 1, number)
                    number += 1
                self.assertEqual((log.tried, len(told), size(log.scripts[failed:]) > 1_000), (2, 2, True))
                log.fault = None
                fill(one, 20, number)
                self.assertEqual((one.checkpoint_count, one.checkpoint_fault, len(told), len(one.scan())), (1, None, 2, number + 20))
                for entry in log.scripts:
                    if entry.script.startswith(betable().cluster.replicas.MAGIC):
                        session._apply_packed(entry.script)
                    else:
                        session.replies(entry.script)
                self.assertEqual(one.replies(IMAGES), session.replies(IMAGES))

    def test_a_call_whose_log_has_lost_scripts_meanwhile_has_its_reply(self):
        """The next one says that the replica has diverged."""
        diverged = betable().cluster.Diverged

        class Losing(Log):
            def keep(self, checkpoint):
                del self.scripts[1:]
                self.add("other", b"get 1\n")
                return super().keep(checkpoint)

        log = Losing()
        with notices() as told, opened(log) as one:
            one.run(TABLE)
            number = 0
            while one.checkpoint_fault is None:
                self.assertEqual(one.put([(number, "x" * 50, number)]), 1)
                number += 1
            self.assertEqual((type(one.checkpoint_fault), type_of_fault(one.scan), log.kept, len(told)), (diverged, diverged, None, 1))

    def test_memory_that_runs_out_in_a_checkpoint_fails_no_call(self):
        """The replica begins again with the next call."""
        package, log, made = betable(), Log(), []

        class Starved(package.Session):
            def replies(self, script):
                if script.startswith(b"rebuild ") and len(made) == 1:
                    raise package.OutOfMemory
                return super().replies(script)

        with notices() as told, opened(log, make=lambda: made.append(Starved()) or made[-1]) as one:
            one.run(TABLE)
            fill(one, 20)
            self.assertEqual((len(one.scan()), len(made), len(told), type(one.checkpoint_fault)), (20, 2, 1, package.cluster.Unanswered))
            fill(one, 20, 20)
            self.assertEqual((one.checkpoint_count, one.checkpoint_fault, len(one.scan()), len(made)), (1, None, 40, 2))

    def test_an_index_is_completed_first(self):
        log = Log()
        with opened(log) as one:
            one.run(TABLE)
            fill(one, 5)
            one.run("index i on city\nbuild i 1\n")
            fill(one, 30, 5)
            self.assertEqual((one.checkpoint_count, one.checkpoint_fault, log.kept, rebuilds(log)), (0, None, None, []))
            one.run("build i 99\n")
            self.assertEqual((one.checkpoint_count, log.kept.position), (1, len(log.scripts)))

    def test_calls_that_only_read_write_no_checkpoint(self):
        log = Log()
        with opened(log, None) as one:
            one.run(TABLE)
            fill(one, 30)
            with opened(log) as two:
                two.catch_up()
                two.scan()
                two.replies("get 1\n")
                self.assertEqual((two.checkpoint_count, len(log.scripts)), (0, 31))
                fill(two, 1)
                self.assertEqual(two.checkpoint_count, 1)

    def test_checkpoints_can_be_switched_off(self):
        log = Log()
        with opened(log, None) as one:
            one.run(TABLE)
            fill(one, 100)
            self.assertEqual((one.checkpoint_count, log.kept, log.trimmed, len(log.scripts)), (0, None, 0, 101))
            one.checkpoint()
            self.assertEqual((one.checkpoint_count, log.kept.position), (1, 102))

    def test_the_checkpoint_of_a_call_counts_for_all_replicas(self):
        """None is written by itself before the log has grown by as much again."""
        log = Log()
        with opened(log, 2_000) as one, opened(log, 2_000) as two:
            one.run(TABLE)
            fill(one, 20)
            one.checkpoint()
            begun = len(log.scripts)
            for each in (one, two):
                fill(each, 10, 20)
            self.assertEqual((one.checkpoint_count, two.checkpoint_count), (1, 0))
            fill(two, 20, 40)
            self.assertEqual((one.checkpoint_count, two.checkpoint_count), (1, 1))
            self.assertGreater(size(log.scripts[begun : log.kept.position]), 2_000)

    def test_wrong_sizes_are_refused(self):
        log = Failing("open", AssertionError())
        for wrong, kind in ((0, ValueError), (-1, ValueError), (2**61, ValueError), ("x", TypeError), (True, TypeError), (1.5, TypeError)):
            self.assertIn("checkpoint_bytes", str(raised(kind, lambda wrong=wrong: opened(log, wrong))))
        self.assertEqual(log.tried, 0)
