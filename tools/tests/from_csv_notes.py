"""Tests of what tools/from_csv says of columns that it keeps as text: dates with the year last, true and false in other languages, and records that are wrong
among many that are right."""

import subprocess
import sys
import tempfile
import unittest
from pathlib import Path

TOP = Path(__file__).resolve().parents[2]


def from_csv(text: str, *words: str) -> tuple[int, str, str]:
    """The status of tools/from_csv on a text, its script, and its sentences."""
    with tempfile.TemporaryDirectory() as folder:
        path = Path(folder) / "given.csv"
        path.write_text(text, encoding="utf-8")
        ended = subprocess.run([sys.executable, TOP / "tools/from_csv", path, "--key", "id", *words], capture_output=True, text=True, timeout=60)
    return ended.returncode, ended.stdout, ended.stderr


def column(values: list[str]) -> str:
    """A file with these values, each with a number, divided by semicolons."""
    return "id;v\n" + "".join(f"{number};{value}\n" for number, value in enumerate(values))


class Dates(unittest.TestCase):
    def test_dates_with_the_day_first_are_told_with_the_option_that_sorts_them(self) -> None:
        _, script, said = from_csv(column(["29.02.2024", "", "1.3.2024"]))
        self.assertIn("v: dates with the day first, the first '29.02.2024' in record 1 (line 2), kept as text: their order is not that of the days", said)
        self.assertIn("; --date v=D.M.Y puts the year first\n", said)
        self.assertIn("\n0,29.02.2024\n", script)

    def test_the_order_of_day_and_month_is_never_guessed(self) -> None:
        either = "v: dates with the year last, the first '03/04/2024' in record 1 (line 2), kept as text"
        for values, wanted in (
            (["03/04/2024", "12/12/2024"], f"{either}: their order is not that of the days; --date v=D/M/Y, or --date v=M/D/Y if the month is first,"),
            (["03/04/2024", "12/13/2024"], "v: dates with the month first"),
            (["03/04/2024", "13/12/2024 23:59:01"], "v: dates with the day first"),
        ):
            self.assertIn(wanted, from_csv(column(values))[2])

    def test_what_is_no_date_is_not_told_as_one(self) -> None:
        for values in (["29.02.2024", "30.02.2024"], ["13/01/2024", "01/13/2024"], ["2024-02-29"], ["1.2.24"], ["1.2/2024"], ["10.0.0.2024"], ["1.2.2024 x"]):
            self.assertNotIn("dates", from_csv(column(values))[2], values)

    def test_the_option_puts_the_year_first_and_keeps_the_time(self) -> None:
        status, script, said = from_csv(column(["29.02.2024", "1.3.2024 08:30", ""]), "--date", "v=D.M.Y")
        self.assertEqual(status, 0)
        self.assertIn("table 16 1024 256 1 id:int v:text\nload\nid,v\n0,2024-02-29\n1,2024-03-01 08:30\n2,\n.\n", script)
        self.assertIn("v: dates, stored with the year first\n", said)
        self.assertIn("\n0,2024-02-03\n", from_csv(column(["02/03/2024"]), "--date", "v=M/D/Y")[1])

    def test_the_option_refuses_each_field_that_is_no_date(self) -> None:
        status, script, said = from_csv(column(["29.02.2023", "1.3.2024", "n/a", "1/3/2024"]), "--date", "v=D.M.Y")
        self.assertEqual((status, script), (2, ""))
        self.assertIn("record 1 (line 2) is '29.02.2023', and no date of the form D.M.Y", said)
        self.assertIn("record 3 (line 4) is 'n/a', and no date of the form D.M.Y (--null v=n/a", said)
        self.assertIn("record 4 (line 5) is '1/3/2024'", said)

    def test_a_wrong_form_says_what_to_write(self) -> None:
        for words in (["v=D.M/Y"], ["v=Y-M-D"], ["v=D.M.Y", "--kind", "v=int"], ["v=D.M.Y", "--scale", "v=1"]):
            status, _, said = from_csv(column(["1.2.2024"]), "--date", *words)
            self.assertEqual(status, 2)
            self.assertIn("a form such as D.M.Y or M/D/Y", said)


class Flags(unittest.TestCase):
    def test_words_for_true_and_false_in_other_languages_name_the_option(self) -> None:
        found = {("WAHR", "FALSCH"): "v=WAHR,FALSCH", ("nein", "Ja"): "v=Ja,nein", ("VRAI", "FAUX"): "v=VRAI,FAUX", ("нет", "да"): "v=да,нет"}
        for words, setting in found.items():
            said = from_csv(column([*words] * 3))[2]
            self.assertIn("kept as text; --flag ", said)
            self.assertIn(f"{setting}' makes flags of them" if not setting.isascii() else f"{setting} makes flags of them", said)
            status, script, _ = from_csv(column([*words] * 3), "--flag", setting)
            self.assertEqual((status, script.count("true"), script.count("false")), (0, 3, 3))

    def test_empty_fields_among_them_need_a_value(self) -> None:
        self.assertIn("--flag v=ja,nein with --empty v=false makes flags of them", from_csv(column(["ja", "", "nein"]))[2])

    def test_other_words_are_texts_without_a_note(self) -> None:
        for words in (["ja"], ["ja", "falsch"], ["ja", "nein", "vielleicht"], ["Oslo", "Bergen"]):
            self.assertNotIn("--flag", from_csv(column(words))[2], words)


class WrongRecords(unittest.TestCase):
    """Records that turn a column of many numbers into text. They are counted over the whole file, of which 1,000 records are read at a time."""

    def test_one_wrong_record_is_told_with_the_number_of_those_that_are_right(self) -> None:
        values = [str(number) for number in range(2_999)]
        for place in (0, 700, 1_000, 2_998):
            said = from_csv(column([*values[:place], "12 Stk", *values[place:]]))[2]
            where = f"v: text, as record {place + 1} (line {place + 2}) has '12 Stk', which"
            self.assertIn(f"{where} is neither an int nor a decimal; 2,999 records have ints", said)
            self.assertIn(", and --kind v=int names those that have none\n", said)

    def test_several_are_counted_and_empty_fields_are_not(self) -> None:
        values = ["2,25", "", "3"] * 1_000 + ["x"] + ["7"] * 1_500 + ["y", "z"]
        said = from_csv(column(values))[2]
        self.assertIn("has 'x', which is neither an int nor a decimal, and 2 other records have such; 3,500 records have decimals, and --scale v=2 names", said)
        flags = from_csv(column(["true", "false"] * 900 + ["maybe"]))[2]
        self.assertIn("has 'maybe', which is neither true nor false; 1,800 records have flags, and --kind v=flag names", flags)

    def test_the_option_that_is_named_finds_them(self) -> None:
        values = [str(number) for number in range(1_500)]
        values[40], values[1_200] = "12 Stk", "n.a."
        status, script, said = from_csv(column(values), "--kind", "v=int")
        self.assertEqual((status, script), (2, ""))
        self.assertIn("v of record 41 (line 42) is no int", said)
        self.assertIn("v of record 1201 (line 1202) is no int", said)

    def test_a_column_with_many_of_both_is_a_text_without_advice(self) -> None:
        self.assertNotIn("names those", from_csv(column(["1", "2", "3a"] * 900))[2])

    def test_records_after_the_first_wrong_one_are_stored_as_they_are(self) -> None:
        long = "x" * 300
        self.assertIn("has 300 bytes", from_csv(column(["1"] * 2_500 + [long]))[2])
        self.assertIn("\n2500,12 Stk\n2501,007\n", from_csv(column(["1"] * 2_500 + ["12 Stk", "007"]))[1])


if __name__ == "__main__":
    unittest.main()
