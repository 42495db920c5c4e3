"""Checks of a log on a server, which layers.py runs by the Python that has the modules of the servers.

    python3 -m tools.tests.server_logs redis|postgresql

It starts the server, takes scripts, keys and rights from it, and shows how replicas notice."""

import os
import re
import signal
import socket
import subprocess
import sys
import time
from contextlib import closing
from types import SimpleNamespace
from unittest import TestCase

from .common import SECONDS, imported, type_of_fault
from .layers import INDEX, TABLE, betable, raised


def opened(server, name, **options):
    return betable().cluster.replicas.Replicas(server.url, name, **{"patience": SECONDS, **options})


def unusable(test, part, call):
    test.assertIn(part, str(raised(betable().cluster.logs.UnusableLog, call)))


def redis_of(server):
    return __import__("redis").Redis.from_url(server.url)


def rows_of(server, query):
    connection = __import__("psycopg2").connect(server.url)
    connection.autocommit = True
    with closing(connection), connection.cursor() as cursor:
        cursor.execute(query)
        return cursor.fetchall() if cursor.description else None


FIRST_CALLS = [
    lambda replica: replica.once("id", "get 1\n"), lambda replica: replica.replies("drain primary\n"),
    lambda replica: replica.scan(), lambda replica: replica.checkpoint(),
]  # fmt: skip


def lost_scripts(test, server):
    """An older copy of the server's files takes their place. What replaces the lost scripts has equal replies, or others."""
    copy = f"{server.folder}.copy"
    logs = [(f"lost{number}", 1 + number % 2, call) for number, call in enumerate(FIRST_CALLS)]
    pairs = {name: (opened(server, name), opened(server, name)) for name, _, _ in logs}
    for one, two in pairs.values():
        one.run(TABLE)
        one.once("id", "get 1\n")
        two.catch_up()
    server.end()
    subprocess.run(["cp", "-a", server.folder, copy], check=True)
    server.start()
    for name, size, _ in logs:
        for number in range(3):
            pairs[name][0].put([(10 * number + key, "lost", 1) for key in range(size)])
    server.kill()
    os.rename(server.folder, f"{server.folder}.later")
    os.rename(copy, server.folder)
    server.start()
    for name, _, call in logs:
        one, two = pairs[name]
        for number in range(4):
            two.put([(100 + number, "new", 1)])
        test.assertEqual((type_of_fault(lambda: call(one)), type_of_fault(one.scan)), (betable().cluster.replicas.Diverged,) * 2)
        one.close()
        with opened(server, name) as again:
            test.assertEqual(([row[1] for row in again.scan()], again.position, two.catch_up()), (["new"] * 4, 6, 6))
            test.assertEqual((again.put([(5, "again", 1)]), two.get(5)), (1, (5, "again", 1)))
        two.close()


def trimmed_scripts(test, server):
    with opened(server, "trimmed") as one, opened(server, "trimmed") as two:
        one.run(TABLE)
        two.catch_up()
        one.put([(1, "a", 1)])
        one.checkpoint()
        # The log takes no checkpoint that is not of its past.
        checkpoint = one._log.checkpoint()
        test.assertEqual([one._log.keep(checkpoint._replace(position=4, chain=chain, text=b"wrong")) for chain in (checkpoint.chain, b"")], [False, False])
        test.assertEqual(one._log.checkpoint(), checkpoint)
        one.trim()
        test.assertEqual(two.once("id", "batch\nups 1,add,qty,1\nend\nget 1\n"), b"batch 1\nrow 1,a,2\n")
        with opened(server, "trimmed") as three:
            test.assertEqual((three.once("id", "batch\nups 1,add,qty,1\nend\nget 1\n"), three.position, three.scan()), (b"batch 1\nrow 1,a,2\n", 4, one.scan()))


def other_engine(test, server):
    module = betable().cluster.replicas
    engine = module.ENGINE
    with opened(server, "engine") as one:
        one.run(TABLE)
        module.ENGINE = engine + 1
        unusable(test, "close all replicas, and update", lambda: opened(server, "engine"))
        module.ENGINE = engine
        one.checkpoint()
        module.ENGINE = engine + 1
        with opened(server, "engine") as new:
            new.put([(1, "a", 1)])
            module.ENGINE = engine
            for call in (lambda: one.replies("drain primary\n"), one.scan, lambda: opened(server, "engine")):
                unusable(test, "use a version of this package with that engine", call)
            module.ENGINE = engine + 1
            test.assertEqual((new.scan(), new.catch_up()), ([(1, "a", 1)], 3))
    module.ENGINE = engine


def changed_script(test, server):
    with opened(server, "changed") as one:
        one.run(TABLE)
        one.replies("batch\nput 1,a,1\nend\n")
        one.put([(2, "b", 1)])
        if server.url.startswith("redis"):
            client = redis_of(server)
            entries = client.xrange("{changed}:log")
            client.delete("{changed}:log")
            for name, values in entries:
                # The text of the row, in packed bytes or in a script.
                client.xadd("{changed}:log", {key: re.sub(rb"(\x01|put 1,)a", rb"\1x", value) for key, value in values.items()}, name)
        else:
            rows_of(server, "UPDATE changed_log SET script = 'batch\nput 1,x,1\nend\n' WHERE position = 2")
        unusable(test, "script 2 is missing, or was changed", lambda: opened(server, "changed"))
        one.checkpoint()
        with opened(server, "changed") as new:
            test.assertEqual((new.scan(), one.scan()), ([(1, "a", 1), (2, "b", 1)],) * 2)


def checkpoints_by_themselves(test, server):
    """Three replicas keep the log short on the server, and reply as a session that runs all its scripts."""
    images = "image primary\nimage c\n"
    with opened(server, "short", checkpoint_bytes=2_000) as one, opened(server, "short", checkpoint_bytes=2_000) as two, betable().Session() as session:
        with opened(server, "short", checkpoint_bytes=2_000) as three:
            one.run(TABLE + INDEX)
            session.run(TABLE + INDEX)
            positions = []
            for number in range(200):
                replica = (one, two, three)[number % 3]
                script = f"batch\nput {number % 20},x,{number}\nups 1,add,qty,1\nend\nget 1\n"
                # A checkpoint is written after its script.
                before = sum(each.checkpoint_count for each in (one, two, three))
                test.assertEqual(replica.replies(script), session.replies(script))
                if sum(each.checkpoint_count for each in (one, two, three)) > before:
                    session.replies("rebuild primary\nrebuild c\n")
                    positions.append(replica.position)
                    test.assertEqual((one._log.checkpoint_bytes(), one._log.checkpoint().position), (len(one._log.checkpoint().text), replica.position))
            test.assertEqual([each.checkpoint_fault for each in (one, two, three)], [None] * 3)
            test.assertGreater(len(positions), 1)
            kept = redis_of(server).xlen("{short}:log") if server.url.startswith("redis") else rows_of(
                server, "SELECT count(*) FROM short_log WHERE script IS NOT NULL"
            )[0][0]  # fmt: skip
            # The scripts since the checkpoint before the last one, and this one itself.
            test.assertEqual(kept, one.catch_up() - positions[-2] + 1)
            with opened(server, "short") as new:
                test.assertEqual([each.replies(images) for each in (one, two, three, new)], [session.replies(images)] * 4)


def redis_format(test, server):
    """A log of the first format, which had other fields and no end."""
    client = redis_of(server)
    client.xadd("{old}:log", {"request": "r", "script": TABLE, "seen": 0, "checksum": 0}, "1-0")
    client.set("{old}:request:r", 1)
    before = {key: client.dump(key) for key in client.keys("{old}*")}
    unusable(test, "load them into a log of another name", lambda: opened(server, "old"))
    test.assertEqual({key: client.dump(key) for key in client.keys("{old}*")}, before)
    client.hset("{newer}:end", mapping={"format": 3, "engine": 1, "position": 0, "chain": ""})
    unusable(test, "it has format 3", lambda: opened(server, "newer"))
    client.set("{other}:log", "text")
    unusable(test, "WRONGTYPE", lambda: opened(server, "other"))


def redis_keys(test, server):
    """Keys that are gone: the parts of a checkpoint, the scripts after it, those up to it, and a request id."""
    client = redis_of(server)
    with opened(server, "keys") as one:
        one.run(TABLE)
        one.once("id", "batch\nups 1,add,qty,1\nend\n")
        client.delete("{keys}:request:id")
        test.assertEqual((one.once("id", "batch\nups 1,add,qty,1\nend\n"), one.scan()), (b"batch 1\n", [(1, "", 1)]))
        one.checkpoint()
        client.delete(*client.keys("{keys}:checkpoint:*"))
        unusable(test, "parts of its checkpoint at 4 are gone", lambda: opened(server, "keys"))
        one.checkpoint()
        client.delete("{keys}:log")
        with opened(server, "keys") as two:
            test.assertEqual((two.position, two.put([(2, "b", 2)]), one.scan()), (5, 1, [(1, "", 1), (2, "b", 2)]))
        client.delete("{keys}:log")
        unusable(test, "script 6 is missing", lambda: opened(server, "keys"))
        test.assertEqual((one.put([(3, "c", 3)]), one.checkpoint()), (1, 8))
        with opened(server, "keys") as two:
            test.assertEqual(two.scan(), one.scan())


def redis_settings(test, server):
    """Settings by which the server removes keys, and users whose rights are limited."""
    client = redis_of(server)
    client.config_set("maxmemory-policy", "volatile-lru")
    opened(server, "settings").close()
    client.config_set("maxmemory", "100mb")
    unusable(test, "set maxmemory-policy to noeviction", lambda: opened(server, "settings"))
    for rights in (["+@read", "+@write", "+@scripting"], ["+@read", "+@scripting"]):
        client.acl_setuser("limited", enabled=True, nopass=True, keys=["{settings}:*"], commands=rights)
        server_of_user = SimpleNamespace(url=server.url.replace("//", "//limited:x@"))
        if "+@write" in rights:
            # Without INFO the settings are not seen.
            with opened(server_of_user, "settings") as one:
                one.run(TABLE)
                one.checkpoint()
                one.trim()
                test.assertEqual((one.put([(1, "a", 1)]), one.catch_up(0.1)), (1, 3))
        unusable(test, "give its user the keys {another}:*", lambda url=server_of_user: opened(url, "another"))
        client.acl_deluser("limited")
    client.config_set("maxmemory", 0)


def stopped_redis(test, server):
    """A server that is stopped while a replica is open: a call ends after its patience."""
    with opened(server, "silence", patience=1) as one:
        one.run(TABLE)
        server.process.send_signal(signal.SIGSTOP)
        try:
            begin = time.monotonic()
            test.assertEqual((type_of_fault(one.scan), time.monotonic() - begin < 8), (betable().cluster.logs.Unreachable, True))
        finally:
            server.process.send_signal(signal.SIGCONT)
        test.assertEqual(one.scan(), [])


def silent_server(test, server):
    with socket.create_server(("127.0.0.1", 0)) as silent:
        begin = time.monotonic()
        url = server.url.replace(str(server.port), str(silent.getsockname()[1]))
        fault = type_of_fault(lambda: betable().cluster.replicas.Replicas(url, patience=1))
        test.assertEqual((fault, time.monotonic() - begin < 8), (betable().cluster.logs.Unreachable, True))


def postgresql_format(test, server):
    """A log of the first format, which had other columns."""
    rows_of(server, "CREATE TABLE old_end(position bigint NOT NULL)")
    rows_of(server, "INSERT INTO old_end VALUES (0)")
    tables = "SELECT table_name, column_name FROM information_schema.columns WHERE table_name LIKE 'old%' ORDER BY 1, 2"
    unusable(test, "load them into a log of another name", lambda: opened(server, "old"))
    test.assertEqual((rows_of(server, tables), rows_of(server, "SELECT * FROM old_end")), ([("old_end", "position")], [(0,)]))
    opened(server, "newer").close()
    rows_of(server, "UPDATE newer_end SET format = 3")
    unusable(test, "it has format 3", lambda: opened(server, "newer"))


def postgresql_names(test, server):
    """Names that are words of SQL."""
    for name in ("order", "user", "end", "a" * 32):
        with opened(server, name) as one:
            test.assertEqual((one.replies(TABLE), one.catch_up(0.01)), (b"table 3\n", 1))


def postgresql_rights(test, server):
    rows_of(server, "CREATE USER limited")
    user = SimpleNamespace(url=server.url.replace("postgres@", "limited@"))
    unusable(test, "let its user create tables in the schema", lambda: opened(user, "rights"))
    opened(server, "rights").close()
    unusable(test, "SELECT, INSERT, UPDATE and DELETE on rights_end, rights_log, rights_checkpoint", lambda: opened(user, "rights"))
    rows_of(server, "GRANT SELECT, INSERT, UPDATE, DELETE ON rights_end, rights_log, rights_checkpoint TO limited")
    with opened(user, "rights") as one:
        one.run(TABLE)
        one.checkpoint()
        one.trim()
        test.assertEqual(one.put([(1, "a", 1)]), 1)
    rows_of(server, "DROP TABLE rights_log")
    unusable(test, 'relation "rights_log" does not exist', lambda: opened(server, "rights"))


OF_ALL = [lost_scripts, trimmed_scripts, checkpoints_by_themselves, other_engine, changed_script]
CHECKS = {
    "redis": [*OF_ALL, redis_format, redis_keys, redis_settings, stopped_redis, silent_server],
    "postgresql": [*OF_ALL, postgresql_format, postgresql_names, postgresql_rights, silent_server],
}

if __name__ == "__main__":
    with imported("tools/crash/replicas").server(sys.argv[1]) as server:
        for check in CHECKS[sys.argv[1]]:
            check(TestCase(), server)
