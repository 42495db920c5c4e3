"""Tests of checks of scripts, by the library for C and by its clients: beside runs of the same commands, one by one; on the trees that they leave as they are;
and with memory refused."""

import ctypes
import os
import subprocess
from unittest import TestCase

from .common import fault_of, imported, SECONDS, TOP, needs
from .clients import OtherLibrary, betable, both_ways, build_extension, c_program, HERE, library, places_between, rust_program, worked_scripts

from betable import language

DONE, OUT_OF_MEMORY, NOT_OPEN = 0, 1, 3
READ, CHANGED, REFUSED = range(3)
READS = {b"get", b"scan", b"sums", b"image"}
WORDS = set(language.FORMS)
ALL_COMMANDS = TOP / "tools/refused_allocations/all_commands.script"
UNWRITTEN = (99, 98, 97)
RANDOM_SCRIPTS = int(os.environ.get("BETABLE_CHECKED", 200))
SEED = os.environ.get("BETABLE_SEED", "8")

TABLE = b"table 4 3 2 1 id:int city:text qty:int\n"
LOAD = b"load\nid,city,qty\n2,Oslo,20\n1,Bergen,10\n.\n"
INDEX = b"index by_qty on qty\n"
FILLED = TABLE + LOAD + b"index by_city on city include qty\nbuild by_city 9\nindex begun on qty\nbatch\nput 3,Oslo,30\nput 4,Alta,40\nups 1,add,qty,5\nend\n"
CARRIED_OUT = {
    b"batch\nput 5,Voss,50\nput 2,Molde,21\ndel 1\nups 4,set,city,Bergen\nend\n": CHANGED,
    b"batch\nend\n": CHANGED,
    b"get 1\n": READ,
    b"get 9\n": READ,
    b"scan by_city\nfrom Bergen\nto Oslo\ngo\n": READ,
    b"sums by_city 1 qty\ngo\n": READ,
    b"image primary\n": READ,
    b"image begun\n": READ,
    b"index new on qty,city where qty >= 15\n": CHANGED,
    b"build begun 0\n": CHANGED,
    b"build begun 1\n": CHANGED,
    b"drop begun\n": CHANGED,
    b"drop by_city\n": CHANGED,
    b"drain primary\n": CHANGED,
    b"drain by_city\n": CHANGED,
    b"rebuild primary\n": CHANGED,
    b"rebuild by_city\n": CHANGED,
}
# Each is refused on the filled table, for another reason.
NOT_CARRIED_OUT = [
    b"nothing\n",
    b"get\n",
    b"get x\n",
    b"get 1,2\n",
    TABLE,
    b"table\n",
    LOAD,
    b"load\nid,city\n.\n",
    b"batch\nput 5,Voss,50\nput x,Voss,50\nend\n",
    b"batch\nups 1,add,city,5\nend\n",
    b"batch\nups 1,add,town,5\nend\n",
    b"scan nothing\ngo\n",
    b"scan begun\ngo\n",
    b"scan by_city\nfrom a,b,c\ngo\n",
    b"sums by_city 1 city\ngo\n",
    b"sums by_city 0 qty\ngo\n",
    b"image nothing\n",
    b"index by_city on city\n",
    b"index primary on city\n",
    b"index new on town\n",
    b"build by_city 1\n",
    b"build begun\n",
    b"build nothing 1\n",
    b"drop primary\n",
    b"drain nothing\n",
    b"rebuild nothing\n",
    # A block without its end, up to the end of the script.
    b"batch\nput 5,Voss,50\n",
]


def kinds_kept(test, session):
    """The kinds of the replies that a session keeps, with the offset and the length of each. There is none after the last."""
    found, calls, place = [], session._bytes.library, session._bytes.place
    for number in range(calls.betable_reply_count(session._bytes.handle)):
        test.assertEqual(calls.betable_reply(session._bytes.handle, number, place), True)
        found.append((place.kind, place.offset, place.length))
    for number in (len(found), len(found) + 1, 2**64 - 1):
        place.kind, place.offset, place.length = UNWRITTEN
        test.assertEqual((calls.betable_reply(session._bytes.handle, number, place), (place.kind, place.offset, place.length)), (False, UNWRITTEN))
    return found


def counts_of_replies(session):
    """The length of the replies, their bytes, and the number of refused commands."""
    refused_count = session._bytes.library.betable_refused_count
    refused_count.argtypes, refused_count.restype = session._bytes.library.betable_reply_count.argtypes, ctypes.c_size_t
    return session._bytes.library.betable_replies_length(session._bytes.handle), session._bytes.copied(), refused_count(session._bytes.handle)


def status_of_check(session, script):
    return session._bytes.library.betable_check(session._bytes.handle, script, len(script))


def checked(test, session, script):
    """The kinds of the commands of a script, which have no replies."""
    test.assertEqual(status_of_check(session, script), DONE, script)
    test.assertEqual(counts_of_replies(session), (0, b"", 0), script)
    found = kinds_kept(test, session)
    test.assertEqual([place[1:] for place in found], [(0, 0)] * len(found), script)
    return [kind for kind, _, _ in found]


def places_refused(kinds):
    return [place for place, kind in enumerate(kinds) if kind == REFUSED]


def images(session):
    """Those of all trees, and which indexes are complete."""
    trees = session.trees()
    return trees, session.replies(b"".join(b"image %b\n" % name for name in trees.by_name))


def session_after(script):
    session = betable().Session()
    session.replies(script)
    return session


def parts_of(script, places):
    """Its commands, one by one."""
    return [script[start:end] for start, end in zip(places, places[1:])]


# ---- beside runs ----


def with_replies(script):
    """The commands of a script, and the replies to it as a whole."""
    with betable().Session() as session:
        return parts_of(script, places_between(script)), session.replies(script)


def worked_scripts_with_replies():
    for script, wanted, places in worked_scripts():
        yield parts_of(script.read_bytes(), places), wanted.read_bytes()


def check_beside_runs(test, scripts):
    """Each command is checked by itself, before it is run. The kinds are those of the run, and the refused commands are those whose reply is a refusal. All
    replies are as without checks. At the end the whole script is checked in one call. Returns the words of commands that were refused, and of others."""
    refused, done = set(), set()
    for parts, wanted in scripts:
        with betable().Session() as session:
            replies = b""
            for part in parts:
                with test.subTest(part=part):
                    kinds, places = checked(test, session, part), session.check(part)
                    reply = session.replies(part)
                    test.assertEqual(kinds, [kind for kind, _, _ in kinds_kept(test, session)])
                    is_refused = reply.startswith(b"refused ")
                    test.assertEqual(places, [0] if is_refused else [])
                    for word in (command.head.word for command in language.commands(part)):
                        (refused if is_refused else done).add(word)
                        test.assertEqual(kinds, [REFUSED if is_refused else READ if word in READS else CHANGED])
                    replies += reply
            test.assertEqual(replies, wanted)
            script, alone = b"".join(parts), [kind for part in parts for kind in checked(test, session, part)]
            test.assertEqual((checked(test, session, script), session.check(script)), (alone, places_refused(alone)), script)
    return refused, done


class BesideRuns(TestCase):
    @both_ways
    def test_a_check_says_which_commands_a_run_refuses(self):
        """Of the worked scripts, and of one with every command."""
        refused, done = check_beside_runs(self, [*worked_scripts_with_replies(), with_replies(ALL_COMMANDS.read_bytes())])
        self.assertEqual((WORDS - refused, WORDS - done), (set(), set()))

    def test_a_check_says_which_commands_a_run_refuses_at_random(self):
        """Of the random scripts of tools/fuzz: `BETABLE_CHECKED` is their number, and `BETABLE_SEED` the seed."""
        scripts = imported("tools/fuzz/scripts.py")
        check_beside_runs(self, (with_replies(scripts.script(SEED, number)) for number in range(RANDOM_SCRIPTS)))

    def test_a_check_of_a_script_changes_nothing(self):
        """The script with every command is checked before each of its commands, and at the end: the images of all trees are as before, and the replies to all
        commands are as without checks."""
        script = ALL_COMMANDS.read_bytes()
        with betable().Session() as session, betable().Session() as other:
            for part in [*parts_of(script, places_between(script)), b""]:
                with self.subTest(part=part):
                    before = images(session)
                    checked(self, session, script)
                    self.assertEqual(images(session), before)
                    self.assertEqual(session.replies(part), other.replies(part))

    @both_ways
    def test_commands_that_would_be_carried_out_are_not(self):
        """Those of each kind, where they would be carried out: on no table, on one without rows, and on one with rows and indexes. Afterwards each does what it
        does in a session without checks."""
        for setup, commands in ((b"", {TABLE: CHANGED}), (TABLE, {LOAD: CHANGED, INDEX: CHANGED}), (FILLED, CARRIED_OUT)):
            for command, kind in commands.items():
                with self.subTest(command=command):
                    with session_after(setup) as session, session_after(setup) as other:
                        before = images(session)
                        for _ in range(3):
                            self.assertEqual((checked(self, session, command), session.check(command)), ([kind], []))
                        self.assertEqual(images(session), before)
                        reply = session.replies(command)
                        self.assertEqual(reply.startswith(b"refused "), False)
                        self.assertEqual((reply, images(session)), (other.replies(command), images(other)))
            with session_after(setup) as session:
                before = images(session)
                self.assertEqual((checked(self, session, b"".join(commands)), images(session)), ([*commands.values()], before))


# ---- what a check keeps ----


class KeptByChecks(TestCase):
    @both_ways
    def test_commands_are_judged_by_themselves(self):
        """No command is judged with the effects of those before it, in both directions: what a run refuses after them, and what it carries out only after
        them."""
        cases = [
            (b"", TABLE + TABLE + LOAD + b"get 1\n" + INDEX, [CHANGED, CHANGED, REFUSED, REFUSED, REFUSED], [1]),
            (TABLE, LOAD + LOAD, [CHANGED, CHANGED], [1]),
            (TABLE, INDEX + INDEX + b"build by_qty 1\nscan by_qty\ngo\n", [CHANGED, CHANGED, REFUSED, REFUSED], [1]),
            (TABLE + INDEX, b"build by_qty 1\nscan by_qty\ngo\ndrop by_qty\nimage by_qty\n" + INDEX, [CHANGED, REFUSED, CHANGED, READ, REFUSED], [3]),
            (TABLE, b"batch\nput 1,Oslo,1\nend\n" + LOAD, [CHANGED, CHANGED], [1]),
        ]
        for setup, script, kinds, refused_by_run in cases:
            with self.subTest(script=script):
                with session_after(setup) as session:
                    self.assertEqual((checked(self, session, script), session.check(script)), (kinds, places_refused(kinds)))
                    session.replies(script)
                    self.assertEqual(places_refused([kind for kind, _, _ in kinds_kept(self, session)]), refused_by_run)

    @both_ways
    def test_scripts_of_any_form_are_checked(self):
        with session_after(FILLED) as session:
            for script in (b"", b"\n", b"\n\n\r\n"):
                with self.subTest(script=script):
                    self.assertEqual((checked(self, session, script), session.check(script)), ([], []))
            for command in NOT_CARRIED_OUT:
                with self.subTest(command=command):
                    self.assertEqual((checked(self, session, command), session.check(command)), ([REFUSED], [0]))
                    self.assertEqual(session.replies(command).startswith(b"refused "), True)
            count = len(NOT_CARRIED_OUT)
            script = b"\n".join([b"get 1\n", *NOT_CARRIED_OUT])
            self.assertEqual((checked(self, session, script), session.check(script.decode())), ([READ] + [REFUSED] * count, list(range(1, count + 1))))

    def test_a_check_takes_the_place_of_replies(self):
        """Those of a run before it, and those of a run or of a call after it take its place."""
        with session_after(FILLED) as session:
            wanted = session.replies(b"get 1\nget x\nget 9\n")
            self.assertEqual((counts_of_replies(session), len(kinds_kept(self, session))), ((len(wanted), wanted, 1), 3))
            self.assertEqual(checked(self, session, b"get x\nget 9\n"), [REFUSED, READ])
            self.assertEqual(session.get(1), (1, "Bergen", 15))
            self.assertEqual(kinds_kept(self, session), [])
            self.assertEqual(checked(self, session, b"get x\n"), [REFUSED])
            self.assertEqual(session.replies(b"get 1\nget x\nget 9\n"), wanted)
            self.assertEqual((counts_of_replies(session), len(kinds_kept(self, session))), ((len(wanted), wanted, 1), 3))

    @both_ways
    def test_a_closed_session_checks_nothing(self):
        session = session_after(FILLED)
        self.assertEqual(session.check(b"get x\n"), [0])
        session.close()
        self.assertEqual((status_of_check(session, b"get x\n"), counts_of_replies(session), kinds_kept(self, session)), (NOT_OPEN, (0, b"", 0), []))
        self.assertEqual(type(fault_of(lambda: session.check(b"get x\n"))), ValueError)


# ---- memory ----


def refused_check():
    return c_program(HERE / "c/refused_check.c", "-Wl,--wrap=malloc,--wrap=realloc,--wrap=free")


class Memory(TestCase):
    @both_ways
    def test_a_check_without_memory_is_an_exception(self):
        client = betable()
        with session_after(FILLED) as session:
            before = images(session)
            session.check("get x\n")
            kind = ctypes.CFUNCTYPE(ctypes.c_uint, ctypes.POINTER(client.library.Handle), ctypes.c_char_p, ctypes.c_size_t)
            other = OtherLibrary(session, {"betable_check": kind(lambda *_: OUT_OF_MEMORY)})
            fault = fault_of(lambda: session.check("get x\n"))
            other.end(session)
            self.assertEqual(
                (type(fault), fault.replies, fault.is_cut, fault.is_lost, str(fault)), (client.OutOfMemory, b"", False, False, "betable: out of memory")
            )
            self.assertEqual((session.check("get x\n"), images(session)), ([0], before))

    def test_refused_memory_is_answered_by_checks(self):
        """Each request of a check, alone and with those after it: what is returned, that the table is as before, and that all memory is freed. A lost table
        refuses each command."""
        ended = subprocess.run([refused_check()], capture_output=True, text=True, timeout=SECONDS)
        self.assertEqual((ended.returncode, ended.returncode and ended.stdout, ended.stderr), (0, 0, ""))

    @needs("valgrind")
    def test_valgrind_finds_nothing_in_checks(self):
        words = ["valgrind", "-q", "--leak-check=full", "--errors-for-leak-kinds=all", "--error-exitcode=9"]
        ended = subprocess.run([*words, refused_check()], capture_output=True, text=True, timeout=SECONDS)
        self.assertEqual((ended.returncode, ended.stderr), (0, ""))


# ---- Rust ----


def setUpModule():
    """The library, the extension of the Python client, and the programs that more than one test runs, before tests run side by side."""
    library()
    build_extension()
    worked_scripts()
    refused_check()


class InRust(TestCase):
    @needs("rustc")
    def test_a_check_in_rust_says_which_commands_a_run_refuses(self):
        """As above, of the worked scripts; the program compares, and prints how many commands were refused and how many were not."""
        words = [word for script, _, places in worked_scripts() for word in ("--", script, *map(str, places))]
        ended = subprocess.run([rust_program(HERE / "rust/checks.rs"), *words[1:]], capture_output=True, text=True, timeout=SECONDS)
        self.assertEqual((ended.returncode, ended.stderr), (0, ""))
        refused = done = 0
        for parts, _ in worked_scripts_with_replies():
            with betable().Session() as session:
                for part in parts:
                    if reply := session.replies(part):
                        refused += reply.startswith(b"refused ")
                        done += not reply.startswith(b"refused ")
        self.assertEqual(ended.stdout, f"{refused} refused, {done} not\n")
