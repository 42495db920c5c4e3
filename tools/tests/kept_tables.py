"""Tests of betable_engine --keep: its file as a reader of its own finds it, files that a crash or damage may leave, requests that are sent ahead, kills, losses of
power, and calls that fail.

VERIFYING.md says what is proved. These tests try what that rests on: that the methods of `HostFile` do what they note, and that `main` passes on what it has to.
"""

import errno
import os
import random
import resource
import signal
import struct
import subprocess
import tempfile
import threading
import unittest
from contextlib import suppress
from pathlib import Path

from .. import frames
from ..frames import APPLY, CHECK, DONE, GET, INVALID, ONCE, REFUSED, SCRIPT, once
from .common import SECONDS, TABLE, TOP, ProgramTestCase, needs, output_of, replies

KILLS = 60
HEAD, START = 40, 16  # bytes of the head, and of a frame of the file before its payload
FORMAT = ENGINE = 1
READ = "scan primary\ngo\nscan by_city\ngo\nimage primary\nimage by_city\n"


def program():
    """The path of the engine."""
    return Path(os.environ.get("BETABLE_ENGINE") or TOP / "crates/betable_engine/out") / "betable_engine"


# What begins the command of another process that serves tables in files, while a test of file_tables.py asks for it.
INSTEAD = []


def command(path):
    """The words that start a process which serves the table in a file."""
    return [*(INSTEAD or [program()]), "--keep", path]


def batch(number):
    """Three rows, of which a crash must leave all or none."""
    return "batch\n" + "".join(f"put {3 * number + row},city {number % 7},{number}\n" for row in range(3)) + "end\n"


SCRIPTS = [TABLE + "\n", batch(0), "index by_city on city\nbuild by_city 9\n", *map(batch, range(1, 9)), "batch\ndel 4\nups 5,add,qty,100\nend\n"]


# ---- requests and replies, as ENGINE.md describes them ----


def request(payload, kind=SCRIPT):
    return frames.frame(kind, payload.encode() if isinstance(payload, str) else payload)


def replies_in(output):
    """The frames that bytes begin with: of each its kind and its payload. A part of a frame at the end is left out."""
    found, at = [], 0
    while at + 13 <= len(output):
        magic, length, kind = struct.unpack_from("<4sQB", output, at)
        if magic != frames.MAGIC:
            raise AssertionError(output[at : at + 50])
        if at + 13 + length > len(output):
            break
        found.append((kind, output[at + 13 : at + 13 + length]))
        at += 13 + length
    return found


def text_of(reply):
    """The text of the reply to a script."""
    kind, payload = reply
    if kind != DONE:
        raise AssertionError(reply)
    return frames.text_of(payload).decode()


# ---- the format of the file, as bt_journal/src/lib.rt and bt_durable/src/lib.rt describe it ----


def sum_of(seed, payload):
    found = seed
    for byte in struct.pack("<Q", START + len(payload)) + payload:
        found = (found * 6364136223846793005 + byte + 1) % 2**64
    return found


def frame(seed, payload):
    return struct.pack("<QQ", START + len(payload), sum_of(seed, payload)) + payload


def file_of(salt, groups, engine=ENGINE, form=FORMAT):
    """The bytes of a file of these groups of requests, and where each of its frames begins, with its end. A script is a group of one request."""
    data, places = frame(1, struct.pack("<QQQ", form, engine, salt)), [HEAD]
    for group in groups:
        data += frame((salt + places[-1] - HEAD) % 2**64, request(group) if isinstance(group, str) else group)
        places.append(len(data))
    return data, places


# ---- the program ----


def keep_all(path, sent, *words, **options):
    """The status, the replies and the error, of a run to which all bytes are sent ahead."""
    ended = subprocess.run([*command(path), *words], input=sent, capture_output=True, timeout=SECONDS, **options)
    return ended.returncode, replies_in(ended.stdout), ended.stderr.decode()


def send_all(stream, sent):
    """Sends bytes to a process, which may end before it has read them."""
    with suppress(BrokenPipeError), stream:
        stream.write(sent)


def next_reply(process):
    """The reply to a request that was sent, or None if the process has ended."""
    answer = b""
    while not replies_in(answer) and (some := process.stdout.read(1 << 16)):
        answer += some
    return next(iter(replies_in(answer)), None)


def keep(path, *scripts, **options):
    """The status, the texts of the replies and the error, of a run to which each script is sent after the reply to the one before."""
    texts = []
    with subprocess.Popen(command(path), stdin=subprocess.PIPE, stdout=subprocess.PIPE, stderr=subprocess.PIPE, bufsize=0, **options) as process:
        try:
            for script in scripts:
                process.stdin.write(request(script))
                if reply := next_reply(process):
                    texts.append(text_of(reply))
            process.stdin.close()
        except BrokenPipeError:
            pass
        errors = process.stderr.read().decode()
    return process.returncode, texts, errors


def replies_after(scripts):
    """The replies to the reads after these scripts, as betable gives them."""
    before = "".join(scripts)
    return replies(before + READ)[len(replies(before)) :]


class KeptTables(ProgramTestCase):
    @classmethod
    def setUpClass(cls):
        super().setUpClass()
        if not program().exists():
            raise unittest.SkipTest("betable_engine is not built: bin/test builds it, and so does rt run in crates/betable_engine")

    def setUp(self):
        folder = tempfile.TemporaryDirectory()
        self.addCleanup(folder.cleanup)
        self.path = Path(folder.name) / "files/table"
        self.path.parent.mkdir()

    def rows_of_batches(self):
        """The numbers of the batches whose rows are there, each of them whole."""
        status, texts, errors = keep(self.path, "scan primary\ngo\n")
        self.assertEqual((status, errors), (0, ""))
        rows = [line[4:].split(",") for line in texts[0].splitlines() if line.startswith("row ")]
        numbers = [int(row[2]) for row in rows[::3]]
        self.assertEqual(rows, [[str(3 * number + row), f"city {number % 7}", str(number)] for number in numbers for row in range(3)])
        return numbers

    def opens_as(self, data, expected):
        """Opens a file with these bytes, twice, since the first opening may change it."""
        self.path.write_bytes(data)
        for _ in range(2):
            self.assertEqual(keep(self.path, READ), (0, [expected], ""))

    def is_refused(self, data, reason):
        self.path.write_bytes(data)
        self.assertEqual(keep_all(self.path, request(READ)), (2, [], f"betable: {reason}\n"))
        self.assertEqual(self.path.read_bytes(), data)

    def has_groups(self, *groups):
        """The file has these groups of requests, and then zeros."""
        data = self.path.read_bytes()
        expected, _ = file_of(int.from_bytes(data[32:40], "little"), groups)
        self.assertEqual(data.rstrip(b"\0"), expected.rstrip(b"\0"))
        self.assertGreaterEqual(len(data), len(expected))
        return data


class Files(KeptTables):
    def test_a_file_has_a_head_the_requests_that_change_the_table_and_zeros(self):
        status, texts, errors = keep(self.path, *SCRIPTS[:4], READ, "get 1\n", "del 1\n", *SCRIPTS[4:], READ)
        self.assertEqual((status, errors, len(texts)), (0, "", len(SCRIPTS) + 4))
        self.assertEqual(texts[4], replies_after(SCRIPTS[:4]))
        self.assertEqual(texts[-1], replies_after(SCRIPTS))
        data = self.has_groups(*SCRIPTS)
        self.opens_as(data, replies_after(SCRIPTS))
        self.assertEqual(self.path.read_bytes(), data)

    def test_requests_that_are_sent_ahead_are_one_group(self):
        sent = b"".join(request(script) for script in (*SCRIPTS, READ))
        status, found, errors = keep_all(self.path, sent)
        self.assertEqual((status, errors), (0, ""))
        self.assertEqual([text_of(reply) for reply in found], keep(self.path.with_name("other"), *SCRIPTS, READ)[1])
        data = self.has_groups(sent)
        self.opens_as(data, replies_after(SCRIPTS))
        self.opens_as(data[: HEAD + START + len(sent) - 1], replies(READ))

    def test_packed_changes_are_kept_if_they_are_applied(self):
        keep(self.path, TABLE + "\n")
        put = b"BTV\1" + struct.pack("<IBqB4sq", 1, 0, 7, 4, b"Oslo", 30)
        status, found, errors = keep_all(self.path, request(put, APPLY))
        self.assertEqual((status, found, errors), (0, [(DONE, b"")], ""))
        self.has_groups(TABLE + "\n", request(put, APPLY))
        status, found, errors = keep_all(self.path, request(put[:-1], APPLY) + request(put[:5], APPLY))
        self.assertEqual((status, [kind for kind, _ in found], errors), (0, [REFUSED] * 2, ""))
        self.has_groups(TABLE + "\n", request(put, APPLY))
        self.assertEqual(keep(self.path, "get 7\n"), (0, ["row 7,Oslo,30\n"], ""))

    def test_what_is_no_request_is_answered_and_not_kept(self):
        keep(self.path, TABLE + "\n")
        before = self.path.read_bytes()
        long = request(batch(1))
        for sent, names in (
            (request("", 99) + long + request("get 1\n")[:-1], ["UnknownKind", "TooLong", "CutOff"]),
            (long + b"get 1\n" * 3 + request(batch(2)), ["TooLong", "NoFrame"]),
            (request(batch(1))[:5], ["CutOff"]),
        ):
            status, found, errors = keep_all(self.path, sent, "--most-frame", "20")
            self.assertEqual((status, found, errors), (0, [(INVALID, name.encode()) for name in names], ""))
            self.assertEqual(self.path.read_bytes(), before)

    def test_a_file_is_read_with_any_limit(self):
        keep(self.path, *SCRIPTS)
        found = keep_all(self.path, request("get 3\n") + request(READ), "--most-frame", "10")
        self.assertEqual((found[0], len(found[1]), found[1][1]), (0, 2, (INVALID, b"TooLong")))
        self.opens_as(self.path.read_bytes(), replies_after(SCRIPTS))

    def test_a_check_and_a_refusal_are_not_kept(self):
        keep(self.path, TABLE + "\n", batch(0))
        before = self.path.read_bytes()
        status, found, errors = keep_all(self.path, request(batch(1), CHECK) + request(TABLE + "\n") + request("get 1\n") + request(b"", GET))
        self.assertEqual((status, len(found), errors), (0, 4, ""))
        self.assertEqual(self.path.read_bytes(), before)

    def test_each_crew_makes_the_same_table(self):
        for number, words in enumerate((["--workers", "1"], ["--workers", "2", "--grain", "1"], ["--workers", "4", "--cut", "1", "--grain", "1"])):
            path = self.path.with_name(f"crew {number}")
            self.assertEqual(keep_all(path, b"".join(map(request, SCRIPTS)), *words)[0], 0)
            self.assertEqual(keep(path, READ), (0, [replies_after(SCRIPTS)], ""))

    def test_each_new_file_has_a_salt_of_its_own(self):
        salts = set()
        for name in "abcd":
            keep(self.path.with_name(name), TABLE + "\n")
            salts.add(self.path.with_name(name).read_bytes()[32:40])
        self.assertEqual(len(salts), 4)

    def test_a_file_that_was_cut_has_the_requests_before_the_cut(self):
        data, places = file_of(31, SCRIPTS)
        expected = [replies_after(SCRIPTS[:count]) for count in range(len(places))]
        for length in range(HEAD, len(data), 3):
            self.opens_as(data[:length], expected[sum(place <= length for place in places) - 1])
        for length in range(1, HEAD):
            self.is_refused(data[:length], "the file is no table")

    def test_a_torn_frame_is_not_there(self):
        data, places = file_of(12345, SCRIPTS)
        before, after, last = replies_after(SCRIPTS[:-1]), replies_after(SCRIPTS), places[-2]
        random.seed(86)
        for length in range(last, len(data)):
            lost = len(data) - length
            for torn in (data[:length] + bytes(lost + 50), data[:length] + random.randbytes(lost) + bytes(50), data[:last] + bytes(length - last + 1) + data[length + 1 :]):
                self.opens_as(torn, after if torn.rstrip(b"\0") == data.rstrip(b"\0") else before)
        for zeros in (0, 1, 1000):
            self.opens_as(data + bytes(zeros), after)
        self.opens_as(data + random.randbytes(1000), after)

    def test_requests_follow_a_torn_frame(self):
        data, places = file_of(2**64 - 7, SCRIPTS)
        self.path.write_bytes(data[: places[-2]] + random.randbytes(40))
        self.assertEqual(keep(self.path, SCRIPTS[-1])[0], 0)
        self.assertEqual(self.path.read_bytes().rstrip(b"\0"), data.rstrip(b"\0"))

    def test_a_changed_byte_is_noticed(self):
        data, places = file_of(99, SCRIPTS)
        before = replies_after(SCRIPTS[:-1])
        random.seed(87)
        for place in range(len(data)):
            changed = bytearray(data)
            changed[place] ^= 1 << random.randrange(8)
            if place < HEAD:
                self.is_refused(bytes(changed), "the file is no table")
            elif place < places[-2]:
                self.is_refused(bytes(changed), "the file is damaged")
            else:
                self.opens_as(bytes(changed), before)

    def test_another_file_is_refused_and_left_as_it_is(self):
        self.is_refused(file_of(5, SCRIPTS, engine=ENGINE + 1)[0], "another engine wrote the file")
        self.is_refused(file_of(5, SCRIPTS, form=FORMAT + 1)[0], "the file has another format")
        for data in (b"\n", random.randbytes(300), file_of(5, [])[0][:-1]):
            self.is_refused(data, "the file is no table")
        self.opens_as(file_of(5, [])[0], replies(READ))
        self.opens_as(b"", replies(READ))

    def test_a_file_is_open_once(self):
        with subprocess.Popen(command(self.path), stdin=subprocess.PIPE, stdout=subprocess.PIPE, bufsize=0) as first:
            first.stdin.write(request(TABLE + "\n"))
            self.assertEqual(text_of(next_reply(first)), "table 3\n")
            self.assertEqual(keep_all(self.path, request(READ)), (2, [], "betable: the file is in use\n"))
            first.stdin.close()
            self.assertEqual(first.wait(SECONDS), 0)
        self.assertEqual(keep(self.path, READ)[0], 0)


class RequestsThatRunOnce(KeptTables):
    MOST_KNOWN = 100_000

    def answers(self, *requests):
        """The kinds and the payloads of the replies to requests that are sent ahead."""
        status, found, errors = keep_all(self.path, b"".join(requests))
        self.assertEqual((status, len(found), errors), (0, len(requests), ""))
        return found

    def test_each_call_gets_the_reply_of_the_first_one(self):
        keep(self.path, TABLE + "\n", batch(0))
        add = once(7, b"batch\nups 1,add,qty,1\nend\nget 1\n")
        first, again, get = self.answers(add, add, request("get 1\n"))
        self.assertEqual((first, text_of(first), text_of(get)), (again, "batch 1\nrow 1,city 0,1\n", "row 1,city 0,1\n"))
        self.has_groups(TABLE + "\n", batch(0), add + add + request("get 1\n"))
        # The file has the group whole, and is run again at each start.
        self.assertEqual(self.answers(request(batch(1)), add, request("get 1\n"))[1:], [first, get])

    def test_a_request_that_was_refused_is_not_run_again(self):
        get = once(1, b"get 1\n")
        (refused,) = self.answers(get)
        self.assertEqual(text_of(refused), "refused 3 NoTable\n")
        keep(self.path, TABLE + "\n", batch(0))
        self.assertEqual(self.answers(get), [refused])

    def test_packed_changes_run_once(self):
        keep(self.path, TABLE + "\n", batch(0))
        add = once(2**128 - 1, frames.packed(1, struct.pack("<BqBBBq", 2, 1, 1, 1, 2, 5)), APPLY)
        self.assertEqual([text_of(reply) if number == 2 else reply for number, reply in enumerate(self.answers(add, add, request("get 1\n")))],
                         [(DONE, b""), (DONE, b""), "row 1,city 0,5\n"])  # fmt: skip

    def test_another_request_with_the_id_is_refused(self):
        keep(self.path, TABLE + "\n")
        put = once(3, batch(0).encode())
        first, *others = self.answers(put, once(3, batch(1).encode()), once(3, batch(0).encode(), CHECK), once(3, batch(0).encode() + b"\n"), put)
        self.assertEqual(others, [(INVALID, b"RequestReused")] * 3 + [first])
        self.assertEqual(self.rows_of_batches(), [0])

    def test_an_id_that_is_not_whole_is_refused(self):
        keep(self.path, TABLE + "\n")
        whole = once(4, b"")[13:]
        before = self.path.read_bytes()
        self.assertEqual(self.answers(*(request(whole[:length], ONCE) for length in range(17))), [(INVALID, b"NoRequestId")] * 17)
        self.assertEqual(self.path.read_bytes(), before)
        self.assertEqual([kind for kind, _ in self.answers(request(whole, ONCE))], [DONE])

    def test_an_engine_without_a_file_takes_no_ids(self):
        ended = subprocess.run([program()], input=once(1, b"get 1\n"), capture_output=True, timeout=SECONDS)
        self.assertEqual(replies_in(ended.stdout), [(INVALID, b"UnknownKind")])

    def test_the_last_requests_are_known(self):
        keep(self.path, TABLE + "\n", batch(0))
        add = b"batch\nups 1,add,qty,1\nend\n"
        self.answers(*(once(number, add if number == 1 else b"") for number in range(1, self.MOST_KNOWN + 1)))
        *_, get = self.answers(once(1, add), once(self.MOST_KNOWN + 1, b""), once(1, add), request("get 1\n"))
        self.assertEqual(text_of(get), "row 1,city 0,2\n")

    def test_after_a_kill_requests_that_are_sent_again_run_once(self):
        """Each process is killed after some bytes of its replies. The next one is sent all requests again whose replies have not arrived."""
        keep(self.path, TABLE + "\n", batch(0))
        random.seed(86)
        requests = [once(number, b"batch\nups 1,add,qty,%d\nend\n" % number) for number in range(1, 30_001)]
        answered = kills = 0
        while answered < len(requests):
            with subprocess.Popen(command(self.path), stdin=subprocess.PIPE, stdout=subprocess.PIPE) as process:
                sender = threading.Thread(target=send_all, args=(process.stdin, b"".join(requests[answered:])))
                sender.start()
                output = process.stdout.read(random.randrange(1, 20_000))
                process.kill()
                output += process.stdout.read()
                sender.join()
            kills += process.returncode == -signal.SIGKILL
            found = replies_in(output)
            self.assertEqual([text_of(reply) for reply in found], ["batch 1\n"] * len(found))
            answered += len(found)
        self.assertGreater(kills, 5)
        self.assertEqual(keep(self.path, "get 1\n"), (0, [f"row 1,city 0,{sum(range(30_001))}\n"], ""))


class Crashes(KeptTables):
    def test_a_kill_loses_nothing_that_was_answered(self):
        """Each second process is killed after its first reply, and the others at any time, also while they open the file."""
        keep(self.path, TABLE + "\n")
        random.seed(88)
        sent = 0
        for turn in range(KILLS):
            with subprocess.Popen(command(self.path), stdin=subprocess.PIPE, stdout=subprocess.PIPE, bufsize=0) as process:
                killer = threading.Timer(random.uniform(0, 0.05), process.send_signal, [signal.SIGKILL])
                first, answers = sent, b""
                if turn % 2 == 0:
                    killer.start()
                try:
                    for number in range(first, first + 1000):
                        process.stdin.write(request(batch(number)))
                        sent = number + 1
                        if turn % 2 and number == first:
                            answers = process.stdout.read(1)
                            killer.start()
                except BrokenPipeError:
                    pass
                answers += b"".join(iter(lambda: process.stdout.read(1 << 16), b""))
                killer.join()
            numbers = self.rows_of_batches()
            self.assertEqual(numbers, list(range(len(numbers))))
            self.assertGreaterEqual(len(numbers), first + len(replies_in(answers)) + (len(answers) > sum(13 + len(payload) for _, payload in replies_in(answers))))
            self.assertLessEqual(len(numbers), sent)
            sent = len(numbers)
        self.assertGreater(sent, KILLS // 2)

    def test_a_write_that_fails_is_told(self):
        """The system refuses to write past the end of the file, after which the table has the request or not."""
        keep(self.path, TABLE + "\n")
        data = self.path.read_bytes().rstrip(b"\0") + bytes(1000)
        self.path.write_bytes(data)

        def limit():
            signal.signal(signal.SIGXFSZ, signal.SIG_IGN)
            resource.setrlimit(resource.RLIMIT_FSIZE, (len(data), len(data)))

        status, texts, errors = keep(self.path, *map(batch, range(50)), preexec_fn=limit)
        self.assertEqual((status, errors), (1, "betable: the disk failed\n"))
        self.assertGreater(len(texts), 5)
        self.assertIn(self.rows_of_batches(), [list(range(len(texts))), list(range(len(texts) + 1))])

    def test_an_output_that_fails_ends_the_run(self):
        with open("/dev/full", "wb") as full:
            ended = subprocess.run(command(self.path), input=request(TABLE + "\n"), stdout=full, stderr=subprocess.PIPE, timeout=SECONDS)
        self.assertEqual((ended.returncode, ended.stderr), (1, b"betable: write failed\n"))
        self.assertEqual(keep(self.path, TABLE + "\n")[1], ["refused 4 TableExists\n"])

    def test_wrong_arguments(self):
        for words in (["--keep"], ["--keep", "a", "--workers", "65"], ["a"]):
            ended = subprocess.run([program(), *words], input=b"", capture_output=True, timeout=SECONDS)
            self.assertEqual((ended.returncode, ended.stderr), (2, b"betable: faulty command line\n"))
        self.assertEqual(keep_all(self.path / "none", b"")[::2], (2, "betable: the file cannot be opened\n"))


# ---- calls of the system that fail, or at which the process or the machine stops ----

STEPS = [TABLE + "\n", *map(batch, range(3))]
NOTHING, HALF, ALL_BUT_A_BYTE, WHOLE = range(4)  # how much tools/crash/faults.c carries out of a write that fails, or at which the process is killed


def operations_of(trace):
    """The operations on files in a trace of tools/crash/faults.c: their letters, paths, offsets and bytes."""
    while trace:
        name, at, size, trace = trace.split(b"\0", 3)
        yield chr(name[0]), name[1:].decode(), int(at), trace[: int(size)]
        trace = trace[int(size) :]


def file_after(operations, path):
    """The bytes that a file has after these operations, or None if there is no such file."""
    files = {}
    for letter, name, at, data in operations:
        if letter == "c":
            files[name] = b""
        elif letter == "w":
            files[name] = files[name][:at].ljust(at, b"\0") + data + files[name][at + len(data) :]
        elif letter == "t":
            files[name] = files[name][:at].ljust(at, b"\0")
        elif letter == "m":
            files[data.decode()] = files.pop(name)
    return files.get(path)


@needs("cc")
class FaultyCalls(KeptTables):
    """Runs the engine with a fault at one of its calls of the system."""

    @classmethod
    def setUpClass(cls):
        super().setUpClass()
        folder = tempfile.TemporaryDirectory()
        cls.addClassCleanup(folder.cleanup)
        cls.library = f"{folder.name}/faults.so"
        output_of(["cc", "-std=c11", "-shared", "-fPIC", TOP / "tools/crash/faults.c", "-o", cls.library])

    def run_with(self, *steps, killed=-1, failed=-1, part=NOTHING, refused=-1):
        """Runs steps with a fault: the status, the number of replies, the error, and the operations on files."""
        trace = self.path.parent.with_name("trace")
        words = f"{self.path.parent} {trace} {killed} {failed} {failed} {part} {errno.ENOSPC} {refused}"
        status, texts, errors = keep(self.path, *steps, env={"LD_PRELOAD": self.library, "FAULTS": words})
        return status, len(texts), errors, list(operations_of(trace.read_bytes()))


class Faults(FaultyCalls):
    def run_anew(self, **fault):
        """Runs all steps on a new file, with a fault."""
        for path in self.path.parent.iterdir():
            path.unlink()
        return self.run_with(*STEPS, **fault)

    def count_of_steps(self):
        """After how many steps the table is as it is in the file."""
        status, texts, errors = keep(self.path, "scan primary\ngo\n")
        self.assertEqual((status, errors), (0, ""))
        if texts[0] == replies("scan primary\ngo\n"):
            return 0
        numbers = self.rows_of_batches()
        self.assertEqual(numbers, list(range(len(numbers))))
        return 1 + len(numbers)

    def can_go_on(self, answered):
        """The file has the steps that were answered, or one more, and takes the others."""
        found = self.count_of_steps()
        self.assertIn(found, (answered, answered + 1))
        self.assertEqual(keep(self.path, *STEPS[found:], "image primary\n")[1][-1], replies("".join(STEPS) + "image primary\n")[len(replies("".join(STEPS))) :])

    def test_the_process_is_killed_at_each_call(self):
        operations = self.run_anew()[3]
        for killed in range(len(operations)):
            for part in (NOTHING, HALF, ALL_BUT_A_BYTE, WHOLE):
                with self.subTest(killed=killed, part=part):
                    status, answered, _, _ = self.run_anew(killed=killed, part=part)
                    self.assertEqual(status, -signal.SIGKILL)
                    self.can_go_on(answered)

    def test_each_call_fails(self):
        operations = self.run_anew()[3]
        for failed in range(len(operations)):
            for part in (NOTHING, HALF):
                with self.subTest(failed=failed, part=part):
                    status, answered, errors, _ = self.run_anew(failed=failed, part=part)
                    self.assertIn((status, errors), ((1, "betable: the disk failed\n"), (2, "betable: the file cannot be opened\n")))
                    self.can_go_on(answered)

    def test_the_power_is_lost_after_each_call(self):
        """What was not synced is there, or not, or in part. A reply is written after the sync that follows its write."""
        status, answered, errors, operations = self.run_anew()
        self.assertEqual((status, answered, errors), (0, len(STEPS), ""))
        random.seed(89)
        synced = 0
        for count in range(1, len(operations) + 1):
            letter, name, at, data = operations[count - 1]
            before, after = file_after(operations[: count - 1], str(self.path)), file_after(operations[:count], str(self.path))
            images = [before, after]
            if letter == "s":
                synced += operations[count - 2][:2] == ("w", name) and name == str(self.path)
            elif letter != "c":
                self.assertEqual(operations[count][0], "s")
            if letter == "w" and name == str(self.path):
                for size in (1, 7, 8, 16, 20, len(data.rstrip(b"\0")) - 1):
                    images += [before[:at] + torn + before[at + len(torn) :] for torn in (data[:size], bytes(size) + data[size:], data[:size] + random.randbytes(200))]
            for image in images:
                self.path.unlink(missing_ok=True)
                if image is not None:
                    self.path.write_bytes(image)
                self.can_go_on(synced)

    def test_each_allocation_is_refused(self):
        """Some are not needed."""
        refused = unneeded = 0
        while unneeded < 20:
            status, answered, errors, _ = self.run_anew(refused=refused)
            if status == 0:
                self.assertEqual((answered, errors), (len(STEPS), ""))
                unneeded += 1
            else:
                self.assertIn(status, (1, 2))
                self.assertEqual(errors, "betable: out of memory\n")
                unneeded = 0
            self.can_go_on(answered)
            refused += 1 + refused // 20
        self.assertGreater(refused, 50)
