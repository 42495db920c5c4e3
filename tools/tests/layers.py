"""Tests of tables among shards and on replicas: their calls give what those of one session give. tools/crash has the same of replicas at length.

Replicas are tested over a log in this process, and over redis-server and PostgreSQL, with their processes killed and by server_logs.py. A test is skipped where
one of these is not installed. Debian's modules are those of /usr/bin/python3, which runs these tests."""

import os
import pickle
import random
import re
import shutil
import signal
import subprocess
import sys
import tempfile
from array import array
from functools import cache, partial
from hashlib import sha256
from pathlib import Path
from unittest import TestCase

from .clients import library
from .common import SECONDS, TOP, fault_of, imported, type_of_fault

PYTHON = "/usr/bin/python3"
TABLE = "table 16 64 16 1 id:int city:text qty:int\n"
INDEX = "index c on city include qty\nbuild c 1\n"


@cache
def betable():
    library()
    package = __import__("betable")
    __import__("betable.cluster")
    return package


def setUpModule():
    library()


# ---- shards ----


def sharded(*bounds):
    """A table among shards in processes."""
    cluster = betable().cluster
    return cluster.Sharded([cluster.ProcessShard() for _ in range(len(bounds) + 1)], [bound if isinstance(bound, tuple) else (bound,) for bound in bounds])


ROWS = [(number * 37 % 100 - 20, f"x{number % 7},\n"[: number % 4], number) for number in range(100)]
READS = (
    lambda one: one.scan(),
    lambda one: one.scan("primary", (-3,), (40,)),
    lambda one: one.scan(limit=60),
    lambda one: one.scan(after=(29,), limit=7),
    lambda one: one.scan("c"),
    lambda one: one.scan("c", ("O",), ("P",)),
    lambda one: one.scan("c", limit=7),
    lambda one: one.scan("c", ("x",), after=one.scan("c")[9][:2], limit=7),
    lambda one: one.scan_columns(),
    lambda one: one.scan(newest_first=True),
    lambda one: one.scan("primary", (-3,), (40,), 30, newest_first=True),
    lambda one: one.scan(after=(30,), limit=7, newest_first=True),
    lambda one: one.scan("c", limit=60, newest_first=True),
    lambda one: one.scan("c", None, ("x2",), after=one.scan("c")[9][:2], newest_first=True),
    lambda one: one.scan_columns(limit=60, newest_first=True),
    lambda one: one.scan_columns("c", ("x",), limit=30, newest_first=True),
    lambda one: one.scan_columns("c", ("x",), limit=30),
    lambda one: one.scan_columns("c", ("z",)),
    lambda one: one.sums("c", 1, "qty"),
    lambda one: one.sums("primary", 1, "qty", (7,), (77,)),
    lambda one: (one.count(), one.count("c"), one.count("primary", (7,), (77,)), one.count("c", ("z",))),
    lambda one: [one.get(key) for key in (-20, -1, 0, 5, 29, 30, 79, 80)],
)


class Shards(TestCase):
    def test_calls_on_shards_are_those_of_a_session(self):
        """Rows and columns that are put, and all reads, with an index that was made before rows and one that was made after some."""
        package = betable()
        with sharded(0, 30) as table, package.Session() as session:
            for one in (table, session):
                one.table("id:int city:text qty:int", fanout=4, buffer=8, leaf=4)
                one.index("c", "city", "qty")
                self.assertEqual([one.put(rows) for rows in ([], (row for row in ROWS), [{"qty": 1, "id": 5, "city": "Oslo"}, (50, "Oslo", 3)])], [0, 100, 2])
                one.index("large", "qty", where=("qty", ">=", 90))
                self.assertEqual(one.put({"qty": [7, 8, 9], "id": array("q", [70, -7, 7]), "city": ["a", "b", "c"]}), 3)
            for number, call in enumerate((*READS, lambda one: one.scan("large"))):
                with self.subTest(number=number):
                    self.assertEqual(call(table), call(session))

    def test_rows_of_random_tables_are_those_of_a_session(self):
        """Keys of one and two columns of each kind, with bounds among them; later rows take the place of earlier ones."""
        package, dice = betable(), random.Random(5)
        values = {"int": range(-9, 9), "text": ["", "a", "a\0", "ab", "æ", "\ufeff", "z" * 255], "flag": [False, True], "bytes": [b"", b"\0", b"\xff", b"ab"]}
        for number in range(12):
            kinds = [dice.choice(list(values)) for _ in range(3)]
            keys = dice.randrange(1, 3)
            draw = lambda count: tuple(dice.choice(values[kind]) for kind in kinds[:count])  # noqa: E731
            bounds = sorted({draw(dice.randrange(1, keys + 1)) for _ in range(dice.randrange(4))})
            with self.subTest(number=number, bounds=bounds), sharded(*bounds) as table, package.Session() as session:
                for one in (table, session):
                    one.table({f"c{place}": kind for place, kind in enumerate(kinds)}, keys)
                    one.index("i", ("c2", "c0"))
                for _ in range(4):
                    rows = [draw(3) for _ in range(dice.randrange(40))]
                    given = rows if dice.random() < 0.5 else {f"c{place}": list(column) for place, column in enumerate(zip(*rows))} if rows else []
                    self.assertEqual(table.put(given), session.put(given))
                for call in (lambda one: one.scan(), lambda one: one.scan("i"), lambda one: one.sums("i", 1, "c0") if kinds[0] == "int" else None):
                    self.assertEqual(call(table), call(session))

    def test_columns_of_numpy_are_divided(self):
        try:
            import numpy
        except ImportError:
            self.skipTest("NumPy is not installed")
        ids = numpy.arange(1_000) * 7 % 1_000 - 300
        columns = {"id": ids, "city": numpy.array([f"city{number % 9}" for number in range(1_000)]), "qty": ids * 2}
        with sharded(-100, 0, 500) as table, betable().Session() as session:
            for one in (table, session):
                one.table("id:int city:text qty:int")
                self.assertEqual(one.put(columns), 1_000)
                self.assertEqual(one.put({name: values[:0] for name, values in columns.items()}), 0)
            self.assertEqual(table.scan(), session.scan())

    def test_a_row_at_fault_is_that_of_the_call(self):
        """Of several the first one. The shard that refuses it changes nothing, and the others put theirs."""
        wrong = (
            [(1, "a", 1), (150, "b", 2), (3, "c", "x")],
            [(1, "a", 1), (150, 5, 2), (3, "c", "x")],
            [(1, "a", 1), (150,)],
            [(1, "a", 1), 5],
            {"id": [1, 150, 3], "city": ["a", 5, "c"], "qty": [1, 2, 3]},
            {"id": [1, 150, 2**70], "city": ["a", "b", "c"], "qty": [1, 2, 3]},
            {"id": [1, 2], "city": ["a"], "qty": [1, 2]},
            {"id": [1]},
            7,
        )
        for number, rows in enumerate(wrong):
            with self.subTest(number=number), sharded(100) as table, betable().Session() as session:
                for one in (table, session):
                    one.table("id:int city:text qty:int")
                faults = [fault_of(lambda one=one: one.put(rows)) for one in (table, session)]
                self.assertEqual(*[(type(fault), str(fault), getattr(fault, "row", None)) for fault in faults])
                self.assertEqual((session.scan(), [row[0] for row in table.scan()]), ([], [[150], [], [1], [], [1, 3], [1], [], [], []][number]))

    def test_bounds_are_keys_of_the_table(self):
        cluster = betable().cluster
        for bounds in ([], [(1,), (2,)], [(2,), (1,), (3,)], [(1,), (1,), (2,)], [(), (1,), (2,)]):
            with self.subTest(bounds=bounds):
                self.assertIs(type_of_fault(lambda: cluster.Sharded([None] * 4, bounds)), ValueError)
        for bound, kind in (("a", "RowTypeError"), ((1, 2), "RowValueError"), (2**63, "Refused")):
            with self.subTest(bound=bound), sharded(bound) as table:
                self.assertEqual(type_of_fault(lambda: table.table("id:int city:text")).__name__, kind)
                self.assertEqual(fault_of(table.scan).name, "NoTable")

    def test_a_killed_shard_loses_the_table(self):
        package = betable()
        with sharded(10) as table:
            table.table("id:int")
            process = table._shards[1].process
            process.kill()
            process.wait()
            self.assertIsNone(table.get(1))
            lost = raised(package.cluster.ShardLost, lambda: table.put([(1,), (11,)]))
            self.assertEqual((lost.shard, table.is_lost, pickle.loads(pickle.dumps(lost)).shard), (1, True, 1))
            self.assertEqual(type_of_fault(lambda: table.get(1)), package.cluster.ShardLost)
        self.assertEqual(type_of_fault(table.scan), ValueError)

    def test_a_shard_that_hangs_loses_the_table(self):
        """Its process is stopped: it takes no more of rows that are longer than the pipe to it, or gives no reply."""
        cluster = betable().cluster
        for wrong in (0, -1, 1.9, float("inf"), float("nan")):
            self.assertEqual(type_of_fault(lambda wrong=wrong: cluster.ProcessShard(patience=wrong)), ValueError)
        for count in (1, 400_000):
            with self.subTest(count=count), cluster.Sharded([cluster.ProcessShard(patience=4) for _ in range(2)], [(10,)]) as table:
                table.table("id:int")
                os.kill(table._shards[1].process.pid, signal.SIGSTOP)
                lost = raised(cluster.ShardLost, lambda: table.put({"id": [11] * count}))
                self.assertEqual((lost.shard, "gave no sign of life for 4 s" in str(lost.__cause__)), (1, True))
            self.assertEqual(table._shards[1].process.returncode, -signal.SIGKILL)

    def test_a_shard_that_works_for_longer_than_the_patience_is_not_lost(self):
        """It gives signs of life meanwhile."""
        code = "import time; from betable.cluster import shard; shard.Shard._carried_out = lambda *_: time.sleep(6) or 'done'; shard.main()"
        shard = betable().cluster.ProcessShard([sys.executable, "-P", "-c", code], patience=4)
        shard.send("scan")
        self.assertEqual(shard.receive(), "done")
        shard.close()

    def test_shards_are_started_by_a_command(self):
        """As one of ssh would be. What does not speak as a shard is one that is lost, and a shard carries out its calls alone."""
        cluster = betable().cluster
        shard = cluster.ProcessShard(["env", sys.executable, "-P", "-m", "betable.cluster.shard"])
        with cluster.Sharded([cluster.ProcessShard(), shard], [(10,)]) as table:
            table.table("id:int city:text")
            self.assertEqual((table.put([(1, "a"), (11, "b")]), table.scan()), (2, [(1, "a"), (11, "b")]))
            shard.send("run", "drop primary\n")
            self.assertEqual(str(shard.receive()), "run is no call of a shard")
        for command in (["echo", "welcome"], ["true"], ["cat"]):
            with self.subTest(command=command), cluster.Sharded([cluster.ProcessShard(), cluster.ProcessShard(command)], [(10,)]) as table:
                self.assertEqual((raised(cluster.ShardLost, lambda: table.table("id:int")).shard, table.is_lost), (1, True))


# ---- replicas ----


class Log:
    """A log in this process, from which scripts can be lost, and which can be out of reach."""

    def __init__(self):
        self.scripts, self.kept, self.trimmed, self.failures, self.engine = [], None, 0, [], 0

    def reach(self):
        if self.failures:
            raise self.failures.pop()

    def open(self, engine):
        if self.engine == 0 or (self.engine < engine and len(self.scripts) == (self.kept.position if self.kept else 0)):
            self.engine = engine
        return self.engine

    def link(self, chain, request_id, script):
        return betable().cluster.logs.linked(lambda text: sha256(text).digest(), chain, request_id, script)

    def chain_at(self, position):
        return b"" if position == 0 else self.scripts[position - 1].chain if self.trimmed <= position <= len(self.scripts) else None

    def append(self, request_id, script, position, chain, engine):
        if self.engine != engine or self.chain_at(position) != chain:
            return None
        known = [entry.position for entry in self.scripts if entry.request_id == request_id]
        if not known:
            self.add(request_id, script)
        self.reach()
        return (known or [len(self.scripts)])[0]

    def add(self, request_id, script):
        last = len(self.scripts)
        self.scripts.append(betable().cluster.logs.Entry(last + 1, request_id, script, self.link(self.chain_at(last), request_id, script)))

    def end(self, position):
        self.reach()
        return betable().cluster.logs.End(len(self.scripts), self.chain_at(position), self.engine)

    def entries(self, first, last):
        return self.scripts[max(first, self.trimmed) - 1 : last][:2]

    def wait(self, position, seconds):
        self.add("another", b"get 1\n")

    def checkpoint(self):
        return self.kept

    def keep(self, checkpoint):
        if self.chain_at(checkpoint.position) != checkpoint.chain:
            return False
        if self.kept is None or self.kept.position < checkpoint.position:
            self.kept = checkpoint
        return True

    def checkpoint_bytes(self):
        return len(self.kept.text) if self.kept else 0

    def trim(self):
        self.trimmed = self.kept.position if self.kept else 0

    def close(self):
        pass


CALLS = (
    lambda replica: replica.scan(), lambda replica: replica.catch_up(), lambda replica: replica.put([(9, "x", 9)]),
    lambda replica: replica.replies("drain primary\n"), lambda replica: replica.once("id", "get 1\n"), lambda replica: replica.checkpoint(),
)  # fmt: skip


def run_checks_of_logs(test, log):
    library()
    ended = subprocess.run([PYTHON, "-B", "-m", "tools.tests.server_logs", log], cwd=TOP, capture_output=True, text=True, timeout=2 * SECONDS)
    test.assertEqual((ended.returncode, ended.stderr), (0, ""))


class Replicas(TestCase):
    def test_replicas_reply_as_one_session_does(self):
        package, log = betable(), Log()
        images = "image primary\nimage c\nscan c\ngo\n"
        with package.Session() as session, package.cluster.replicas.Replicas(log) as one, package.cluster.replicas.Replicas(log) as two:
            for number, script in enumerate(
                [TABLE + INDEX, "batch\nput 1,a,1\nput 2,b,1\nend\n", "batch\nput x,a,1\nend\nget 1\n", "ups\n", images, "drain c\n"]
            ):
                self.assertEqual((one, two)[number % 2].replies(script), session.replies(script))
            self.assertEqual(one.put((key, "Oslo", key) for key in range(100)), session.put((key, "Oslo", key) for key in range(100)))
            self.assertEqual((two.get(7), two.sums("c", 1, "qty")), (session.get(7), session.sums("c", 1, "qty")))
            self.assertEqual(len([entry for entry in log.scripts if b"image" in entry.script or b"get 7" in entry.script]), 0)
            # A checkpoint is a rebuild on all replicas, and a new one begins with it.
            one.checkpoint()
            session.replies("rebuild primary\nrebuild c\n")
            with package.cluster.replicas.Replicas(log) as three:
                self.assertEqual(three.position, one.position)
                for replica in (two, three):
                    self.assertEqual(replica.replies(images), session.replies(images))
                self.assertEqual(three.put([(7, "Bergen", 1)]), 1)
            session.put([(7, "Bergen", 1)])
            # A replica that has not read what was trimmed begins with the checkpoint too.
            one.checkpoint()
            one.trim()
            session.replies("rebuild primary\nrebuild c\n")
            self.assertEqual(two.replies(images), session.replies(images))

    def test_a_checkpoint_has_all_texts(self):
        """Also those with a line that would end a load. One of before checkpoints had parts is a script."""
        package, log = betable(), Log()
        images = "image primary\nimage c\nscan c\ngo\n"
        with package.cluster.replicas.Replicas(log) as one:
            one.run(TABLE + INDEX)
            one.put([(number, text, number) for number, text in enumerate(["a\n.\nb", "\n.\n", "x\r\n.\r\n", ".", "", "a"])])
            one.checkpoint()
            one.trim()
            with package.cluster.replicas.Replicas(log) as two:
                self.assertEqual((two.scan(), two.replies(images)), (one.scan(), one.replies(images)))
        script = f'{TABLE}{INDEX}load\nid,city,qty\n1,"a\nb",2\n.\n'.encode()
        log = Log()
        log.kept = package.cluster.logs.Checkpoint(0, b"", b'{"outcomes": {}}\n' + script)
        with package.cluster.replicas.Replicas(log) as one:
            self.assertEqual(one.scan("c"), [("a\nb", 1, 2)])

    def test_requests_are_run_once(self):
        package, log = betable(), Log()
        add = "batch\nups 1,add,qty,1\nend\nget 1\n"
        with package.cluster.replicas.Replicas(log) as one, package.cluster.replicas.Replicas(log, patience=0) as two:
            one.replies(TABLE)
            wanted = b"batch 1\nrow 1,,1\n"
            self.assertEqual([replica.once("r", add) for replica in (one, two, one)], [wanted] * 3)
            self.assertEqual(type_of_fault(lambda: two.once("r", "get 1\n")), package.RequestReused)
            # The script is in the log, and the caller gets no reply. It sends the request again, to any replica.
            log.failures = [package.cluster.logs.Unreachable("gone")]
            fault = raised(package.cluster.replicas.Unanswered, lambda: two.replies(add))
            again = pickle.loads(pickle.dumps(fault)).request_id
            self.assertEqual([replica.once(again, add) for replica in (one, two)], [b"batch 1\nrow 1,,2\n"] * 2)
            # Within its patience a replica sends it again itself.
            log.failures = [package.cluster.logs.Unreachable("gone")] * 2
            self.assertEqual(one.replies(add), b"batch 1\nrow 1,,3\n")
            # A checkpoint has the last replies too.
            one.checkpoint()
            one.trim()
            with package.cluster.replicas.Replicas(log) as three:
                self.assertEqual(three.once("r", add), wanted)
                for number in range(package.cluster.replicas.MOST_OUTCOMES):
                    three.once(str(number), "get 1\n")
                self.assertEqual(type_of_fault(lambda: three.once("r", add)), package.cluster.replicas.ReplyForgotten)

    def test_reads_see_what_they_say(self):
        package, log = betable(), Log()
        with package.cluster.replicas.Replicas(log) as one, package.cluster.replicas.Replicas(log) as latest, package.cluster.replicas.Replicas(
            log, reads="local", patience=0
        ) as local:
            one.run(TABLE)
            one.put([(1, "a", 1)])
            self.assertEqual((latest.replies("get 1\n"), local.replies("get 1\n")), (b"row 1,a,1\n", b"refused 3 NoTable\n"))
            log.failures = [package.cluster.logs.Unreachable("gone")]
            self.assertEqual(local.replies("get 1\n"), b"refused 3 NoTable\n")
            log.failures = []
            self.assertEqual((local.catch_up(), local.replies("get 1\n")), (2, b"row 1,a,1\n"))
            self.assertEqual((local.catch_up(1), log.scripts[-1].request_id), (3, "another"))

    def test_reads_of_a_replica_are_those_of_its_session(self):
        """Each asks the log once for what is new, and an iterator for each page. None is in the log, and none runs a script."""
        package, log = betable(), Log()
        rows = [(key, "abc"[key % 3], key) for key in range(30)]
        with package.Session() as session, package.cluster.replicas.Replicas(log) as one, package.cluster.replicas.Replicas(log) as two:
            for table in (session, one):
                table.run(TABLE + INDEX)
                table.put(rows)
            two.catch_up()
            ends, end = [], log.end
            log.end = lambda position: ends.append(position) or end(position)
            two.replies = two._replies_with_places = two._runner._ran = interrupt
            for count, call in (
                (1, lambda table: table.get(7)),
                (1, lambda table: table.get(99)),
                (1, lambda table: table.scan("c", ("b",), limit=4)),
                (1, lambda table: table.scan("c", ("b",), limit=4, newest_first=True)),
                (5, lambda table: list(table.iterate("c", page=9, newest_first=True))),
                (1, lambda table: table.scan_columns("c", limit=4)),
                (1, lambda table: table.sums("c", 1, "qty")),
                (1, lambda table: table.columns("c")),
                (1, lambda table: table.usage("c")),
                (1, lambda table: table.check("get x\n")),
                (5, lambda table: list(table.iterate("c", page=9))),
            ):
                wanted = call(session)
                ends.clear()
                self.assertEqual((call(two), len(ends)), (wanted, count))
            del two.replies, two._replies_with_places, two._runner._ran
            found = two.iterate(page=29)
            self.assertEqual([next(found)[0] for _ in rows[1:]], [*range(29)])
            one.put([(29, "new", 1), (30, "new", 1)])
            self.assertEqual([row[0] for row in found], [29, 30])
            runner = two._runner
            wrong = [fault_of(lambda: call(table)) for table in (session, two) for call in (lambda table: table.get("x"), lambda table: table.scan(limit=-1))]
            self.assertEqual([(type(fault), str(fault)) for fault in wrong[:2]], [(type(fault), str(fault)) for fault in wrong[2:]])
            self.assertIs(two._runner, runner)

    def test_a_replica_whose_scripts_were_lost_stops_and_changes_nothing(self):
        """Each of its calls stops it, whether what replaced them has equal replies or others, or is shorter, also if its request id is known."""
        package = betable()
        for new in ([[(2, "b", 2)]] * 3, [[(2, "b", 2), (3, "b", 3)]] * 3, [[(2, "b", 2)]], []):
            for call in CALLS:
                log = Log()
                with package.cluster.replicas.Replicas(log) as one, package.cluster.replicas.Replicas(log) as two:
                    one.run(TABLE)
                    two.once("id", "get 1\n")
                    one.catch_up()
                    for _ in range(2):
                        one.put([(1, "lost", 1)])
                    del log.scripts[2:]
                    for rows in new:
                        two.put(rows)
                    kept = list(log.scripts)
                    fault = raised(package.cluster.replicas.Diverged, partial(call, one))
                    self.assertEqual(
                        (fault.position, type_of_fault(partial(call, one)), one.is_lost), (min(len(kept), 4), package.cluster.replicas.Diverged, True)
                    )
                    self.assertEqual((log.scripts, log.kept), (kept, None))
                    # The others go on, and so does this one when it is opened again.
                    self.assertEqual(two.put([(4, "c", 4)]), 1)
                    with package.cluster.replicas.Replicas(log) as again:
                        self.assertEqual((again.put([(5, "d", 5)]), again.scan()), (1, two.scan()))
        self.assertEqual(pickle.loads(pickle.dumps(fault)).position, 2)

    def test_a_replica_that_has_run_nothing_follows_any_log(self):
        """One that was opened on an empty log appends to what others have put there. One of an earlier log stops, however long ago that was."""
        package, log = betable(), Log()
        with package.cluster.replicas.Replicas(log) as old, package.cluster.replicas.Replicas(log) as empty:
            old.run(TABLE)
            log.scripts = []
            with package.cluster.replicas.Replicas(log) as new:
                new.run(TABLE.replace("city", "town"))
                self.assertEqual(empty.once("put", "batch\nput 1,a,1\nend\n"), b"batch 1\n")
                self.assertEqual((new.scan(), empty.scan()), ([(1, "a", 1)],) * 2)
            for number in range(20_000):
                log.add(str(number), b"get 1\n")
            self.assertEqual((type_of_fault(old.scan), old.position), (package.cluster.replicas.Diverged, 1))

    def test_the_checkpoint_of_a_wrong_replica_is_refused(self):
        """The log loses scripts after the replica has run the one of its checkpoint."""
        package = betable()

        class Losing(Log):
            def keep(self, checkpoint):
                del self.scripts[1:]
                for number in range(5):
                    self.add(f"new {number}", b"batch\nput 2,new,1\nend\n")
                return super().keep(checkpoint)

        log = Losing()
        with package.cluster.replicas.Replicas(log) as one:
            one.run(TABLE)
            one.put([(1, "lost", 1)])
            self.assertEqual((type_of_fault(one.checkpoint), log.kept), (package.cluster.replicas.Diverged, None))

    def test_a_damaged_log_opens_again_after_a_checkpoint(self):
        """A script or a request id that was changed, or a script that is missing: no replica runs it, and those that have run the right one go on."""
        package = betable()
        for change in ({"script": b"batch\nput 1,b,1\nend\n"}, {"request_id": "other"}, {"position": 0}):
            log = Log()
            with package.cluster.replicas.Replicas(log) as one, package.cluster.replicas.Replicas(log) as two:
                one.run(TABLE)
                one.once("id", "batch\nput 1,a,1\nend\n")
                one.put([(2, "c", 2)])
                log.scripts[1] = log.scripts[1]._replace(**change)
                fault = raised(package.cluster.logs.UnusableLog, lambda two=two: two.scan())
                self.assertEqual(
                    (fault.name, two.position, type_of_fault(lambda log=log: package.cluster.replicas.Replicas(log))),
                    ("betable", 1, package.cluster.logs.UnusableLog),
                )
                self.assertIn("script 2 is missing, or was changed", str(pickle.loads(pickle.dumps(fault))))
                one.checkpoint()
                with package.cluster.replicas.Replicas(log) as new:
                    self.assertEqual([each.scan() for each in (one, two, new)], [[(1, "a", 1), (2, "c", 2)]] * 3)

    def test_a_log_that_loses_a_request_at_once_is_asked_again(self):
        """It was appended, and the server is started again without it, before the replica reads it; another one may have its place."""
        package = betable()
        for new in ([], ["other"]):

            class Losing(Log):
                lost = 0

                def entries(self, first, last):
                    if self.lost:
                        del self.scripts[self.lost :]
                        self.lost = 0
                        for name in new:
                            self.add(name, b"get 1\n")
                    return super().entries(first, last)

            log = Losing()
            with package.cluster.replicas.Replicas(log) as one, package.cluster.replicas.Replicas(log) as two:
                one.run(TABLE)
                two.catch_up()
                log.lost = 1
                self.assertEqual(type_of_fault(lambda: one.once("id", "batch\nput 1,a,1\nend\n")), package.cluster.replicas.Unanswered)
                self.assertEqual((one.once("id", "batch\nput 1,a,1\nend\n"), one.scan()), (b"batch 1\n", [(1, "a", 1)]))
                # One that only reads has run none of what is lost.
                log.lost = 1
                self.assertEqual((two.scan(), two.position, type_of_fault(one.scan)), ([], len(log.scripts), package.cluster.replicas.Diverged))

    def test_a_replica_behind_a_trimmed_log_begins_with_the_checkpoint(self):
        """Also if it appends before it reads."""
        package, log = betable(), Log()
        with package.cluster.replicas.Replicas(log) as one, package.cluster.replicas.Replicas(log) as two:
            one.run(TABLE)
            two.catch_up()
            one.put([(1, "a", 1)])
            one.checkpoint()
            one.put([(2, "b", 2)])
            one.trim()
            self.assertEqual((log.chain_at(two.position), two.once("id", "batch\nups 1,add,qty,1\nend\nget 1\n")), (None, b"batch 1\nrow 1,a,2\n"))
            self.assertEqual((one.scan(), two.position), (two.scan(), 5))
            # What was trimmed without a later checkpoint is lost.
            log.trimmed = 6
            for kept in (None, log.kept, log.kept._replace(position=5)):
                log.kept = kept
                self.assertEqual((type_of_fault(two.scan), type_of_fault(lambda: two.put([(3, "c", 3)]))), (package.cluster.logs.UnusableLog,) * 2)

    def test_two_engines_are_never_on_one_log(self):
        """A newer one takes a log over that is as its checkpoint."""
        package, log = betable(), Log()
        unusable, engine = package.cluster.logs.UnusableLog, package.cluster.replicas.ENGINE
        try:
            with package.cluster.replicas.Replicas(log) as one, package.cluster.replicas.Replicas(log) as two:
                one.run(TABLE)
                one.put([(1, "a", 1)])
                two.catch_up()
                package.cluster.replicas.ENGINE = engine + 1
                self.assertIn("close all replicas, and update", str(raised(unusable, lambda: package.cluster.replicas.Replicas(log))))
                self.assertEqual((type_of_fault(lambda: one.put([(2, "b", 2)])), len(log.scripts), log.engine), (unusable, 2, engine))
                package.cluster.replicas.ENGINE = engine
                one.checkpoint()
                one.put([(2, "b", 2)])
                package.cluster.replicas.ENGINE = engine + 1
                self.assertEqual(type_of_fault(lambda: package.cluster.replicas.Replicas(log)), unusable)
                package.cluster.replicas.ENGINE = engine
                one.checkpoint()
                package.cluster.replicas.ENGINE = engine + 1
                with package.cluster.replicas.Replicas(log) as new:
                    new.put([(3, "c", 3)])
                    package.cluster.replicas.ENGINE = engine
                    last = len(log.scripts)
                    for call in (
                        lambda: package.cluster.replicas.Replicas(log),
                        lambda: one.replies("drain primary\n"),
                        lambda: one.once("id", "get 1\n"),
                        two.scan,
                    ):
                        self.assertIn("use a version of this package with that engine", str(raised(unusable, call)))
                    self.assertEqual((len(log.scripts), log.engine, two.position), (last, engine + 1, 2))
        finally:
            package.cluster.replicas.ENGINE = engine

    def test_a_request_whose_id_the_log_has_lost_is_not_run_again(self):
        """All replicas leave it out, those that begin with a checkpoint too, and those that keep no replies since they are large."""
        package, log, letters = betable(), Log(), betable().cluster.replicas.MOST_REPLY_LETTERS
        add = b"batch\nups 1,add,qty,1\nend\nget 1\n"
        try:
            with package.cluster.replicas.Replicas(log) as one, package.cluster.replicas.Replicas(log) as two:
                one.run(TABLE)
                self.assertEqual(one.once("id", add), b"batch 1\nrow 1,,1\n")
                log.add("id", add)
                log.add("id", b"drain primary\n")
                self.assertEqual(
                    (one.once("id", add), type_of_fault(lambda: two.once("id", "get 1\n"))), (b"batch 1\nrow 1,,1\n", package.RequestReused)
                )
                package.cluster.replicas.MOST_REPLY_LETTERS = 10
                one.checkpoint()
                log.add("id", add)
                with package.cluster.replicas.Replicas(log) as three:
                    self.assertEqual([each.scan() for each in (one, two, three)], [[(1, "", 1)]] * 3)
                    self.assertEqual(
                        [type_of_fault(lambda each=each: each.once("id", add)) for each in (one, two)], [package.cluster.replicas.ReplyForgotten] * 2
                    )
                    self.assertEqual([list(each._outcomes.found) for each in (one, two)], [list(three._outcomes.found)] * 2)
        finally:
            package.cluster.replicas.MOST_REPLY_LETTERS = letters

    def test_request_ids_that_no_server_takes_are_refused_at_once(self):
        package, log = betable(), Log()
        with package.cluster.replicas.Replicas(log) as one:
            for request_id in ("a\0b", "\ud800", "\xe9" * 501, "a" * 1_001):
                self.assertEqual(type_of_fault(lambda request_id=request_id: one.once(request_id, "get 1\n")), ValueError)
            self.assertEqual([one.once(request_id, "get 1\n") for request_id in ("", "\xe9" * 500)], [b"refused 3 NoTable\n"] * 2)
            self.assertEqual([entry.request_id for entry in log.scripts], ["", "\xe9" * 500])

    def test_a_replica_that_fails_begins_again(self):
        """Memory runs out in the midst of a script; the next call begins with the log."""
        package, log, sessions = betable(), Log(), []

        class Failing(package.Session):
            fails = False

            def replies(self, script):
                found = super().replies(script)
                if self.fails:
                    raise package.OutOfMemory(found)
                return found

            def _apply_packed(self, changes):
                found = super()._apply_packed(changes)
                if self.fails:
                    raise package.OutOfMemory(b"")
                return found

        def made():
            sessions.append(Failing())
            return sessions[-1]

        with package.cluster.replicas.Replicas(log, make=made) as one:
            one.run(TABLE)
            sessions[-1].fails = True
            fault = raised(package.cluster.replicas.Unanswered, lambda: one.put([(1, "a", 1)]))
            self.assertEqual((type(fault.__cause__), one.is_lost), (package.OutOfMemory, False))
            self.assertEqual((one.get(1), len(sessions)), ((1, "a", 1), 2))
            self.assertEqual((one.once(fault.request_id, fault.script), one.get(1), len(log.scripts)), (b"", (1, "a", 1), 2))
            sessions[-1].fails = True
            fault = raised(package.cluster.replicas.Unanswered, lambda: one.replies("batch\nput 1,a,1\nend\n"))
            self.assertEqual(one.once(fault.request_id, fault.script), b"batch 1\n")
            # It is interrupted after it has run a script, and before it has noted that.
            one._note = interrupt
            raised(KeyboardInterrupt, lambda: one.replies("batch\nups 1,add,qty,1\nend\n"))
            del one._note
            self.assertEqual(one.get(1), (1, "a", 2))
        self.assertEqual(type_of_fault(lambda: one.replies("get 1\n")), ValueError)

    def test_logs_are_named_by_urls(self):
        log_of = betable().cluster.logs.log_of
        for url, name in (("http://127.0.0.1", "betable"), ("betable", "betable"), ("redis://127.0.0.1", "a b"), ("redis://127.0.0.1", "A")):
            self.assertEqual(type_of_fault(lambda url=url, name=name: log_of(url, name)), ValueError)
        self.assertEqual(type_of_fault(lambda: betable().cluster.replicas.Replicas(Log(), reads="old")), ValueError)

    def test_replicas_over_redis_are_killed_and_come_back(self):
        skip_without(self, "redis")
        run(self, "tools/crash/replicas", "redis", "--scripts", "60", "--kills", "5", "--server-kills", "1", "--checkpoints", "2")

    def test_replicas_over_postgresql_are_killed_and_come_back(self):
        skip_without(self, "postgresql")
        run(self, "tools/crash/replicas", "postgresql", "--scripts", "40", "--kills", "4", "--server-kills", "1", "--checkpoints", "2")

    def test_logs_of_redis_notice_what_is_lost(self):
        skip_without(self, "redis")
        run_checks_of_logs(self, "redis")

    def test_logs_of_postgresql_notice_what_is_lost(self):
        skip_without(self, "postgresql")
        run_checks_of_logs(self, "postgresql")


# ---- the page ----


def printed(test, program, wanted):
    with tempfile.TemporaryDirectory() as folder:
        path = Path(folder) / "program.py"
        path.write_text(program)
        ended = subprocess.run(
            [PYTHON, path], capture_output=True, text=True, cwd=folder, timeout=2 * SECONDS, env={**os.environ, "PYTHONPATH": str(TOP / "clients/python")}
        )
        test.assertEqual((ended.returncode, ended.stdout, ended.stderr), (0, wanted, ""))


class ThePage(TestCase):
    def test_programs_of_the_page_print_what_they_say(self):
        """Those of docs/CLUSTER.md, by the lines after them. The one of replicas has a separate server."""
        library()
        programs = re.findall(r"```python\n(.*?)```\n\n```text\n(.*?)```", (TOP / "docs/CLUSTER.md").read_text(), re.DOTALL)
        self.assertEqual(len(programs), 2)
        for program, wanted in programs:
            if "Replicas" in program:
                if not missing("redis"):
                    with imported("tools/crash/replicas").server("redis") as server:
                        printed(self, program.replace("redis://127.0.0.1", server.url), wanted)
            else:
                printed(self, program, wanted)


# ---- what tests share ----


def interrupt(*_):
    raise KeyboardInterrupt


def raised(kind, call):
    """The exception of a kind that a call raises."""
    try:
        call()
    except kind as fault:
        return fault
    raise AssertionError(f"no {kind.__name__}")


# The program, or its folder, and the module that a test needs.
NEEDED = {"redis": ("redis-server", "redis"), "postgresql": ("/usr/lib/postgresql", "psycopg2")}


@cache
def missing(what):
    """What is not installed of a program and a module, or None."""
    program, module = NEEDED[what]
    if not shutil.which(program) and not Path(program).is_dir():
        return program
    return module if subprocess.run([PYTHON, "-c", f"import {module}"], capture_output=True).returncode else None


def skip_without(test, what):
    if name := missing(what):
        test.skipTest(f"{name} is not installed")


def run(test, *words):
    library()
    ended = subprocess.run([PYTHON, TOP / words[0], *words[1:]], capture_output=True, text=True, timeout=2 * SECONDS)
    test.assertEqual((ended.returncode, ended.stderr), (0, ""))
    test.assertIn(" 0 differences", ended.stdout)
