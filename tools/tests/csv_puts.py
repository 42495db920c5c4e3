"""Tests of CSV files with wrong records that the Python client puts or loads: all of them are told at once, or go to a file while the others are put."""

import csv
import pickle
import random
import tempfile
import unittest
from importlib import import_module
from pathlib import Path
from typing import Any

from .clients import library

client: Any = import_module("betable")
csv_input: Any = __import__("betable.csv_input").csv_input

COLUMNS = "id:int city:text open:flag"
HEADER = "id,city,open\n"
# Records that are wrong, and the column that is at fault.
WRONG = [
    ("x,Oslo,true", "id"), ("9223372036854775808,Oslo,true", "id"), (f"1,{'x' * 256},true", "city"), ("1,Oslo,yes", "open"), (",,", "id"), ("1,Oslo", None),
    ("1,Oslo,true,2", None), ('1,"a ""b""",maybe', "open"), ("1.5,Oslo,true", "id"), (".", None),
]  # fmt: skip

# Texts with line breaks, as they are in quotes.
BREAKS = ["a\nb", "\n", "\n\n", 'a""\n""b', "a,\nb", "\r\n", "a\rb"]


def setUpModule() -> None:
    library()


class Files(unittest.TestCase):
    """Each test has a folder, and a block of any size for the file to be read in."""

    def setUp(self) -> None:
        folder = tempfile.TemporaryDirectory()
        self.addCleanup(folder.cleanup)
        self.path, self.rejects = Path(folder.name) / "rows.csv", Path(folder.name) / "rejects.csv"
        self.addCleanup(setattr, csv_input, "BLOCK", csv_input.BLOCK)

    def write(self, text: str) -> None:
        self.path.write_bytes(text.encode("utf-8", "surrogateescape"))

    def sessions(self) -> Any:
        """A session of the extension, and one whose calls go by scripts."""
        for kind in (client.session.Session, client.session.ScriptSession):
            session = kind()
            self.addCleanup(session.close)
            session.table(COLUMNS)
            yield session

    def refusal(self, call: Any) -> Any:
        with self.assertRaises(client.Refused) as caught:
            call()
        return caught.exception


class AllWrongRecordsAreTold(Files):
    def random_file(self, dice: random.Random) -> tuple[str, list[tuple[int, str | None]], int]:
        """A file, the line and the column of each wrong record, and how many records it has."""
        lines, wrong, count = [HEADER], [], 0
        for number in range(dice.randrange(200)):
            if dice.random() < 0.1:
                record, column = dice.choice(WRONG)
                wrong.append((1 + sum(line.count("\n") for line in lines), column))
            else:
                record = f"{number},{dice.choice(['Oslo', '', 'æ', '.', '5 inch'])},{dice.choice(['true', 'FALSE'])}"
                if dice.random() < 0.05:
                    record = f'{number},"a ""b"", c",true'
            count += 1
            lines.append(record + dice.choice(["\n", "\n", "\r\n", "\n\n"]))
        return "".join(lines), wrong, count

    def test_in_files_of_any_form_cut_at_any_place(self) -> None:
        dice = random.Random(83)
        for _ in range(60):
            text, wrong, count = self.random_file(dice)
            self.write(text)
            csv_input.BLOCK, most = dice.choice([1, 40, 1 << 22]), dice.choice([1, 7, 65_536])
            for session in self.sessions():
                if not wrong:
                    self.assertEqual(session.put_csv(self.path, most=most), count)
                    continue
                fault = self.refusal(lambda: session.put_csv(self.path, most=most))
                self.assertEqual([(one.line, one.column) for one in fault.wrong], wrong, text)
                self.assertEqual((fault.wrong_count, fault.column), (len(wrong), wrong[0][1]))
                # The batches before the first wrong record were put, and nothing of its own and of those after it. The first one has the header.
                right = sum(1 for line in text.split("\n")[1 : wrong[0][0] - 1] if line.strip())
                before = max(0, (1 + right) // most * most - 1)
                self.assertEqual((fault.taken, len(session.scan())), (before, before))
                again = pickle.loads(pickle.dumps(fault))
                self.assertEqual((again.wrong, again.wrong_count, str(again)), (fault.wrong, fault.wrong_count, str(fault)))

    def test_the_message_has_the_first_ones_and_how_many_there_are(self) -> None:
        self.write(HEADER + "1,Oslo,true\n" + "2,Oslo,no\n" * 150 + "x,Oslo,true\n")
        for session in self.sessions():
            for call in (session.put_csv, session.load_csv):
                fault = self.refusal(lambda: call(self.path))
                lines = str(fault).split("\n")
                self.assertEqual(lines[0], f"refused 6 BadField 2: {self.path}: 151 records are wrong")
                self.assertEqual(lines[1], "  line 3: column 3 'open' (flag): 'no' is neither true nor false")
                self.assertEqual((len(lines), lines[-1]), (12, "  and 141 more"))
                self.assertEqual((len(fault.wrong), fault.wrong_count, fault.wrong[-1].line), (100, 151, 102))
                self.assertEqual(session.scan(), [])

    def test_a_single_one_is_named_in_one_line(self) -> None:
        self.write(HEADER + "\n1,Oslo,true\n2,Oslo,no\n")
        for session in self.sessions():
            for call in (session.put_csv, session.load_csv):
                fault = self.refusal(lambda: call(self.path))
                self.assertEqual(str(fault), f"refused 6 BadField 2: {self.path}, line 4: column 3 'open' (flag): 'no' is neither true nor false")
                self.assertEqual(fault.wrong, [(4, "open", "no", "column 3 'open' (flag): 'no' is neither true nor false")])

    def test_a_load_tells_all_of_them_too(self) -> None:
        self.write(HEADER + "".join(record + "\n" for record, _ in WRONG[:-1]) + '5,"a\nb",true\n6,c\n')
        for session in self.sessions():
            fault = self.refusal(lambda: session.load_csv(self.path))
            self.assertEqual([one.column for one in fault.wrong], [column for _, column in WRONG[:-1]] + [None])
            self.assertEqual([one.line for one in fault.wrong], [*range(2, 11), 13])

    def test_a_quote_that_was_forgotten_is_told(self) -> None:
        for text, line in (('1,"Oslo,true\n2,a,true\n', 2), ('1,Oslo,true\n2,"a,true\n3,"b",true\n', 3)):
            self.write(HEADER + text)
            for session in self.sessions():
                self.assertIn(f"line {line}: the quoted field that begins in line {line}", str(self.refusal(lambda: session.put_csv(self.path))))
                self.assertEqual(session.scan(), [])


class TextsWithLineBreaks(Files):
    """The extension packs them, and a script has none."""

    def session(self) -> Any:
        if client.session._packed is None:
            self.skipTest("the extension is not built")
        session = client.session.Session()
        self.addCleanup(session.close)
        session.table(COLUMNS)
        return session

    def test_are_put_in_their_order_among_others(self) -> None:
        dice = random.Random(85)
        for _ in range(40):
            text = [f"{dice.randrange(30)},{dice.choice(['Oslo', 'æ', '5 inch'])},{dice.choice(['true', 'FALSE'])}" for _ in range(dice.randrange(60))]
            text += [f'{dice.randrange(30)},"{dice.choice(BREAKS)}",true' for _ in range(dice.randrange(9))]
            dice.shuffle(text)
            self.write("\ufeff" + HEADER + "".join(record + dice.choice(["\n", "\r\n", "\n\n"]) for record in text))
            with self.path.open(encoding="utf-8-sig", newline="") as file:
                rows = [(int(number), city, flag.lower() == "true") for number, city, flag in list(filter(None, csv.reader(file)))[1:]]
            csv_input.BLOCK = dice.choice([1, 40, 1 << 22])
            session = self.session()
            self.assertEqual(session.put_csv(self.path, most=dice.choice([1, 7, 65_536])), len(rows))
            self.assertEqual(session.scan(), sorted({row[0]: row for row in rows}.values()))

    def test_a_script_refuses_them_with_their_line(self) -> None:
        self.write(HEADER + '1,Oslo,true\n\n2,"a\nb",true\n')
        with client.session.ScriptSession() as session:
            session.table(COLUMNS)
            with self.assertRaisesRegex(client.RowValueError, "column 'city': .*rows.csv, line 4: 'a.*b' has a line break"):
                session.put_csv(self.path)
            self.assertEqual(session.scan(), [])

    def test_wrong_records_among_them_are_told_and_left_out(self) -> None:
        self.write(HEADER + '1,"a\nb",true\n2,"c\n\nd",no\n"x\n",e,true\n3,f,true\n4,g\n')
        session = self.session()
        fault = self.refusal(lambda: session.put_csv(self.path))
        self.assertEqual([(one.line, one.column, one.value) for one in fault.wrong], [(4, "open", "no"), (7, "id", "x\n"), (10, None, None)])
        self.assertEqual(session.put_csv(self.path, rejects=self.rejects), 2)
        self.assertEqual(session.scan(), [(1, "a\nb", True), (3, "f", True)])
        self.assertEqual(self.rejects.read_bytes(), b'id,city,open\n2,"c\n\nd",no\n"x\n",e,true\n4,g\n')


class DurableTables(Files):
    def test_texts_with_line_breaks_and_rejects_are_those_of_a_session(self) -> None:
        if client.session._packed is None:
            self.skipTest("the extension is not built")
        from betable import durable

        self.write(HEADER + '1,"a\nb",true\nx,Oslo,true\n2,"c""\r\nd",false\n')
        path = self.path.with_suffix(".table")
        with durable.open(path) as table:
            table.table(COLUMNS)
            self.assertEqual(self.refusal(lambda: table.put_csv(self.path)).wrong_count, 1)
            self.assertEqual((table.scan(), table.put_csv(self.path, rejects=self.rejects)), ([], 2))
        with durable.open(path) as table:
            self.assertEqual(table.scan(), [(1, "a\nb", True), (2, 'c"\r\nd', False)])


class WrongRecordsGoToAFile(Files):
    def test_as_they_stood_and_the_others_are_put(self) -> None:
        dice = random.Random(84)
        for _ in range(60):
            records = [(f"{number},{dice.choice(['Oslo', 'æ', '']) },true", None) for number in range(dice.randrange(80))]
            mixed = [*records, *(dice.choice(WRONG) for _ in range(dice.randrange(9)))]
            dice.shuffle(mixed)
            self.write("\ufeff" + HEADER + "".join(record + dice.choice(["\n", "\r\n"]) for record, _ in mixed))
            csv_input.BLOCK = dice.choice([1, 40, 1 << 22])
            wrong = [record for record, _ in mixed if record in dict(WRONG)]
            for session in self.sessions():
                calls: list[tuple[int, int]] = []
                self.assertEqual(session.put_csv(self.path, lambda *read: calls.append(read), dice.choice([1, 7, 65_536]), self.rejects), len(records))
                self.assertEqual([row[0] for row in session.scan()], list(range(len(records))))
                self.assertEqual(calls[-1], (self.path.stat().st_size,) * 2)
                self.assertEqual(self.rejects.exists(), bool(wrong))
                if wrong:
                    self.assertEqual(self.rejects.read_text(encoding="utf-8"), HEADER + "".join(record + "\n" for record in wrong))
                    # The file says by itself why each was wrong.
                    fault = self.refusal(lambda: session.put_csv(self.rejects))
                    self.assertEqual([one.column for one in fault.wrong], [dict(WRONG)[record] for record in wrong])
                    self.rejects.unlink()

    def test_a_later_record_of_a_key_wins_as_without_them(self) -> None:
        self.write(HEADER + "1,Oslo,true\nx,,\n1,Bergen,true\n")
        for session in self.sessions():
            self.assertEqual((session.put_csv(self.path, rejects=self.rejects), session.scan()), (2, [(1, "Bergen", True)]))
            self.rejects.unlink()

    def test_a_file_that_is_there_is_not_touched(self) -> None:
        self.write(HEADER + "1,Oslo,true\nx,,\n")
        self.rejects.write_text("before\n")
        for session in self.sessions():
            with self.assertRaisesRegex(FileExistsError, "is there already: wrong records are written to a new file"):
                session.put_csv(self.path, rejects=self.rejects)
            self.assertEqual((session.scan(), self.rejects.read_text()), ([], "before\n"))

    def test_a_wrong_header_is_no_wrong_record(self) -> None:
        self.write("id,town,open\n1,Oslo,true\n")
        for session in self.sessions():
            with self.assertRaisesRegex(client.RowValueError, "line 1: the header is 'id,town,open', and the columns are id,city,open"):
                session.put_csv(self.path, rejects=self.rejects)
            self.assertFalse(self.rejects.exists())


if __name__ == "__main__":
    unittest.main()
