"""Tests of the checkpoints of betable_engine --keep: once its file is long, the state takes the place of the requests that led to it."""

import random
import signal
import struct
import subprocess
import threading
import unittest

from ..frames import DONE, INVALID, KNOWN, REFUSED, RESTORE, frame, once, snapshot
from .common import TABLE, needs, replies
from .kept_tables import HALF, NOTHING, READ, WHOLE, FaultyCalls, KeptTables
from .kept_tables import command, keep, keep_all, next_reply, replies_in, request, send_all, text_of

SIZE = 1 << 24  # bytes that the file has at a first checkpoint
ROWS = 4_000
KILLS = 10
INDEX = "index by_city on city\nbuild by_city 1\n"
SCANS = "scan primary\ngo\nscan by_city\ngo\n"


def long(number):
    """Over a megabyte of messages, which put this number into each row."""
    return "batch\n" + "".join(f"put {row},{row:0250},{number}\n" for row in range(ROWS)) + "end\n"


LONG = [long(number) for number in range(SIZE // len(long(0)) + 2)]  # there is a checkpoint after the last but one of them


def values_in(scan):
    """The numbers that the rows of a table have. Each row has the same one, since a crash leaves all messages of a request or none."""
    return {int(line.rsplit(",", 1)[1]) for line in scan.splitlines() if line.startswith("row ")}


class Checkpoints(KeptTables):
    def is_compacted(self):
        return b"id,city,qty\n" in self.path.read_bytes()

    def test_the_state_takes_the_place_of_the_requests(self):
        status, texts, errors = keep(self.path, TABLE + "\n", INDEX, *LONG, SCANS)
        self.assertEqual((status, errors), (0, ""))
        before = "".join([TABLE, "\n", INDEX, *LONG])
        self.assertEqual(texts[-1], replies(before + SCANS)[len(replies(before)) :])
        self.assertLess(self.path.stat().st_size, SIZE // 4)
        self.assertTrue(self.is_compacted())

    def test_a_process_that_is_ended_after_each_request_has_checkpoints(self):
        for script in [TABLE + "\n", INDEX, *LONG]:
            keep(self.path, script)
        self.assertTrue(self.is_compacted())
        self.assertEqual(values_in(keep(self.path, "scan primary\ngo\n")[1][0]), {len(LONG) - 1})

    def test_the_table_in_the_file_is_that_of_the_process(self):
        """Down to the nodes of its trees, which a checkpoint packs."""
        _, texts, _ = keep(self.path, TABLE + "\n", INDEX, *LONG, READ)
        for _ in range(2):
            self.assertEqual(keep(self.path, READ), (0, texts[-1:], ""))

    def test_trees_are_packed(self):
        """A request that follows a checkpoint finds the images of trees that were rebuilt."""
        with subprocess.Popen(command(self.path), stdin=subprocess.PIPE, stdout=subprocess.PIPE, bufsize=0) as process:
            for number, script in enumerate([TABLE + "\n", INDEX, *LONG]):
                process.stdin.write(request(script))
                next_reply(process)
                process.stdin.write(request(READ))  # its reply comes after a checkpoint
                found = text_of(next_reply(process))
                if self.is_compacted():
                    break
            process.stdin.close()
        before = "".join([TABLE, "\n", INDEX, *LONG[: number - 1], "rebuild primary\nrebuild by_city\n"])
        self.assertEqual(found, replies(before + READ)[len(replies(before)) :])

    def test_requests_that_ran_are_known(self):
        add = once(7, b"batch\nups 1,add,qty,1000\nend\n")
        other = once(8, b"get 1\n")
        start = [request(TABLE + "\n"), request(INDEX), request(LONG[0]), add, other]
        status, found, _ = keep_all(self.path, b"".join(start))
        first, second = found[-2:]
        self.assertEqual((status, text_of(second)), (0, f"row 1,{1:0250},1000\n"))
        keep(self.path, *LONG[1:])
        self.assertTrue(self.is_compacted())
        for _ in range(2):
            _, found, _ = keep_all(self.path, add + other + once(8, b"get 2\n") + request("get 1\n"))
            self.assertEqual(found[:3], [first, second, (INVALID, b"RequestReused")])
            self.assertEqual(text_of(found[3]), f"row 1,{1:0250},{len(LONG) - 1}\n")

    def test_a_table_with_an_index_that_is_building_is_left_as_it_is(self):
        keep(self.path, TABLE + "\n", "index by_city on city\n", *LONG)
        self.assertFalse(self.is_compacted())
        size = self.path.stat().st_size
        self.assertGreater(size, SIZE)
        keep(self.path, f"build by_city {ROWS + 1}\n", *LONG, *LONG)
        self.assertTrue(self.is_compacted())
        self.assertLess(self.path.stat().st_size, size)
        self.assertEqual(values_in(keep(self.path, "scan primary\ngo\n")[1][0]), {len(LONG) - 1})

    def test_each_form_of_a_table_is_restored(self):
        text = "a,b\"c ' \u00e9"
        quoted = text.replace('"', '""')
        row = f'1,"{quoted}",true,2,3'
        columns = ["a:int", "b:text", "c:flag", "d:int", "e:int"]
        tables = {
            "table 4 1 2 1 " + " ".join(columns): [
                "on e", "on b,c include d,e", f'on d where b = "{quoted}"', "on d include e where d >= -9223372036854775808",
                "on c where c < true", 'on e where b >= ""',
            ],
            "table 64 1048576b 1024 4 " + " ".join(columns): ["on e where a = 1", "on a,b,c,d include e"],
            "table 16 4096 256 3 " + " ".join(columns): [f"on e include {'a' if place % 2 else 'b'}" for place in range(16)],
        }  # fmt: skip
        for table, indexes in tables.items():
            with self.subTest(table=table):
                self.path.unlink(missing_ok=True)
                names = [f"index_{place}" for place in range(len(indexes))]
                made = "".join(f"index {name} {index}\nbuild {name} 1\n" for name, index in zip(names, indexes, strict=True))
                others = "".join(f"put {number},{'x' * 250},false,{number},-5\n" for number in range(2, ROWS))
                changes = f"batch\nput {row}\n{others}end\n"
                read = "".join(f"scan {name}\ngo\nimage {name}\n" for name in ["primary", *names])
                _, texts, _ = keep(self.path, table + "\n" + made, *[changes] * (SIZE // len(changes) + 2), read)
                self.assertLess(self.path.stat().st_size, SIZE // 2)
                self.assertEqual(keep(self.path, read), (0, texts[-1:], ""))

    def test_a_kill_after_any_reply_loses_nothing(self):
        """Each process is killed at some time after some number of replies, and may be in a checkpoint then."""
        keep(self.path, TABLE + "\n", INDEX)
        random.seed(90)
        number, compacted = 0, 0
        for _ in range(KILLS):
            before = self.path.stat().st_size
            with subprocess.Popen(command(self.path), stdin=subprocess.PIPE, stdout=subprocess.PIPE, bufsize=0) as process:
                sent = number + 40
                requests = b"".join(request(long(one)) for one in range(number + 1, sent + 1))
                sender = threading.Thread(target=send_all, args=(process.stdin, requests))
                sender.start()
                answers = b""
                wanted = random.randrange(40)
                while len(replies_in(answers)) < wanted:
                    answers += process.stdout.read(1 << 16)
                threading.Timer(random.uniform(0, 0.2), process.kill).start()
                answers += b"".join(iter(lambda: process.stdout.read(1 << 16), b""))
                sender.join()
            compacted += self.path.stat().st_size < before or self.is_compacted()
            status, texts, errors = keep(self.path, "scan primary\ngo\n")
            self.assertEqual((status, errors), (0, ""))
            found = values_in(texts[0]) or {0}
            self.assertEqual(len(found), 1)
            self.assertGreaterEqual(max(found), number + len(replies_in(answers)))
            self.assertLessEqual(max(found), sent)
            number = max(found)
        self.assertGreater(compacted, 0)


@needs("cc")
class FaultsOfCheckpoints(FaultyCalls):
    STEPS = [TABLE + "\n", INDEX, *LONG[:-1]]  # after the reply to the last one there is a checkpoint
    FAILED = 1, "betable: the disk failed\n"  # the status and the error of a process whose checkpoint fails

    def run_anew(self, **fault):
        """Runs all steps on a new file, with a fault."""
        for path in self.path.parent.iterdir():
            path.unlink()
        return self.run_with(*self.STEPS, **fault)

    def calls_of_a_checkpoint(self):
        """The places of its calls of the system."""
        status, answered, errors, operations = self.run_anew()
        self.assertEqual((status, answered, errors), (0, len(self.STEPS), ""))
        # The first file with this name is that of the head.
        created = [place for place, (letter, name, _, _) in enumerate(operations) if (letter, name) == ("c", f"{self.path}.new")]
        self.assertEqual(len(created), 2)
        return range(created[1], len(operations))

    def has_all_requests(self):
        status, texts, errors = keep(self.path, "scan primary\ngo\n")
        self.assertEqual((status, errors), (0, ""))
        self.assertEqual(values_in(texts[0]), {len(LONG) - 2})

    def test_the_process_is_killed_at_each_call(self):
        for killed in self.calls_of_a_checkpoint():
            for part in (NOTHING, HALF, WHOLE):
                with self.subTest(killed=killed, part=part):
                    status, answered, _, _ = self.run_anew(killed=killed, part=part)
                    self.assertEqual((status, answered), (-signal.SIGKILL, len(self.STEPS)))
                    self.has_all_requests()

    def test_each_call_fails(self):
        for failed in self.calls_of_a_checkpoint():
            with self.subTest(failed=failed):
                status, answered, errors, _ = self.run_anew(failed=failed, part=HALF)
                self.assertEqual((status, answered, errors), (self.FAILED[0], len(self.STEPS), self.FAILED[1]))
                self.has_all_requests()


class RequestsOfAFile(KeptTables):
    """The requests that a checkpoint writes. Anyone may make them."""

    SCRIPT = b"table 16 1024 256 1 id:int city:text qty:int\nindex by_city on city\nbuild by_city 1\n"
    ROWS = b"id,city,qty\n7,Oslo,30\n9,Rome,5\n"

    def answers(self, *requests):
        status, found, errors = keep_all(self.path, b"".join(requests))
        self.assertEqual((status, len(found), errors), (0, len(requests), ""))
        return found

    def test_a_snapshot_makes_a_table(self):
        restore = frame(RESTORE, snapshot(self.SCRIPT, self.ROWS))
        before = (self.SCRIPT + b"load\n" + self.ROWS + b".\n").decode()
        for _ in range(2):
            found, scans = self.answers(restore, request(SCANS))
            self.assertEqual(text_of(scans), replies(before + SCANS)[len(replies(before)) :])
        self.assertEqual(found, (REFUSED, struct.pack("<3Q", 4, 0, 0)))

    def test_a_snapshot_that_makes_no_table_is_refused(self):
        building = self.SCRIPT.replace(b"build by_city 1\n", b"")
        payloads = {b"": 3, b"\xff" * 8: 3, snapshot(b"get 1\n", self.ROWS): 3, snapshot(self.SCRIPT, b"id\n"): 5, snapshot(building, self.ROWS): 11}
        for payload, number in payloads.items():
            with self.subTest(payload=payload):
                self.path.unlink(missing_ok=True)
                found, get = self.answers(frame(RESTORE, payload), request("get 1\n"))
                self.assertEqual((found, text_of(get)), ((REFUSED, struct.pack("<3Q", number, 0, 0)), "refused 3 NoTable\n"))

    def test_what_is_known_of_a_request_is_noted(self):
        script = b"get 1\n"
        _, asked = self.answers(request(TABLE + "\n"), once(5, script))
        self.path.unlink()
        note = frame(KNOWN, (5).to_bytes(16, "little") + struct.pack("<QB", self.sum_of(b"\1" + script), asked[0]) + asked[1])
        found = self.answers(note, note, once(5, script), once(5, script + b"\n"), frame(KNOWN, bytes(24)))
        self.assertEqual(found, [(DONE, b""), (INVALID, b"RequestReused"), asked, (INVALID, b"RequestReused"), (INVALID, b"NoRequestId")])

    def sum_of(self, data):
        """The sum of what a request asks, as bt_durable/specs/Once defines it."""
        found = 0
        for byte in data:
            found = (found * 6364136223846793005 + byte + 1) % 2**64
        return found


if __name__ == "__main__":
    unittest.main()
