"""Tests of texts with line breaks in requests to the server: in rows and upserts, as CSV and as JSON, and in keys and bounds. No script has such texts."""

import csv
import io
import json
import os
import random
import signal
import unittest
from typing import Any
from urllib.parse import quote

from .clients import library
from .service import python, server, until

TABLE = b"table 16 1024 256 2 city:text id:int qty:int note:text ok:flag raw:bytes\nindex by_note on note include qty\nbuild by_note 1\n"
NAMES = ["city", "id", "qty", "note", "ok", "raw"]
TEXTS = ["a\nb", "\n", "\r", "x\r\ny", '"\n"', "a,\nb", "plain", "", ".\n.", "end\nput 1", "\ufeff\n", "æ\nø", "x\r", "\nx"]


def setUpModule() -> None:
    library()


def rows_of(count: int, seed: int) -> list[list[Any]]:
    dice = random.Random(seed)
    return [[dice.choice(TEXTS), number, dice.randrange(-9, 9), dice.choice(TEXTS), dice.random() < 0.5, dice.choice(["", "00ff"])] for number in range(count)]


def csv_of(rows: list[list[Any]], end: str = "\n") -> str:
    text = io.StringIO(newline="")
    # Every text in quotes, since Python's writer leaves a byte order mark without.
    csv.writer(text, lineterminator=end, quoting=csv.QUOTE_NONNUMERIC).writerows(rows)
    return text.getvalue()


def in_order(rows: list[list[Any]], *columns: int) -> list[list[Any]]:
    return sorted(rows, key=lambda row: [row[column].encode() if isinstance(row[column], str) else row[column] for column in columns])


@unittest.skipIf(python() is None, "aiohttp is not installed: the server is not tested")
class LineBreaks(unittest.TestCase):
    def send(self, found: Any, method: str, path: str, body: str = "", kind: str = "text/csv", **headers: str) -> tuple[int, Any]:
        """The status of a request, and its JSON if it is no success."""
        given = {"Content-Type": kind, **{name.replace("_", "-"): value for name, value in headers.items()}}
        status, _, answer = found.ask(method, path, body.encode(), given)
        return status, answer if status == 200 else json.loads(answer)

    def stored(self, found: Any, path: str = "/rows/primary") -> list[list[Any]]:
        return found.json(path)["rows"]

    def test_rows_are_stored_as_they_are_sent(self) -> None:
        rows = rows_of(300, 1)
        objects = [dict(zip(NAMES, row)) for row in rows]
        backwards = [[*reversed(row)] for row in rows]
        for path, body, kind in (
            ("/rows", csv_of(rows), "text/csv"),
            ("/rows", "\n\r\n" + csv_of(rows, "\r\n\n").removesuffix("\n"), "text/csv"),
            ("/rows?header=1", f"\ufeff\n{','.join(NAMES)}\n{csv_of(rows)}", "text/csv"),
            ("/rows?header=1", ",".join(reversed(NAMES)) + "\r\n" + csv_of(backwards, "\r\n"), "text/csv"),
            ("/rows", json.dumps(objects), "application/json"),
            ("/rows", "\n".join(map(json.dumps, rows)), "application/x-ndjson"),
        ):
            with server(script=TABLE) as found:
                self.assertEqual(self.send(found, "POST", path, body, kind), (200, b"batch 300\n"))
                self.assertEqual(self.stored(found), in_order(rows, 0, 1))
                wanted = [[note, city, number, qty] for city, number, qty, note, _, _ in in_order(rows, 3, 0, 1)]
                self.assertEqual(self.stored(found, "/rows/by_note"), wanted)
                # Those that are in the file, and not only in memory.
                os.kill(found.engine(), signal.SIGKILL)
                until(lambda: found.metric("betable_engine_starts") == 2 and found.ask("GET", "/healthz")[0] == 200)
                self.assertEqual(self.stored(found), in_order(rows, 0, 1))

    def test_upserts_are_those_of_texts_without_breaks(self) -> None:
        dice = random.Random(2)
        changes = [[dice.choice(TEXTS), dice.randrange(9), dice.randrange(9), dice.choice(TEXTS), dice.randrange(99)] for _ in range(300)]
        plain = [[one.replace("\n", "¶").replace("\r", "§") if isinstance(one, str) else one for one in change] for change in changes]
        path, names = "/upserts?add=qty&set=note&max=qty", ["city", "id", "qty", "note", "qty"]
        with server(script=TABLE) as wanted:
            self.assertEqual(self.send(wanted, "POST", path, csv_of(plain))[0], 200)
            rows = [[one.replace("¶", "\n").replace("§", "\r") if isinstance(one, str) else one for one in row] for row in self.stored(wanted)]
        for words, body, kind in (
            ("", csv_of(changes), "text/csv"),
            ("&header=1", ",".join(names) + "\n" + csv_of(changes), "text/csv"),
            ("", json.dumps(changes), "application/json"),
        ):
            with server(script=TABLE) as found:
                for _ in range(2):
                    self.assertEqual(self.send(found, "POST", path + words, body, kind, Idempotency_Key="a"), (200, b"batch 300\n"))
                self.assertEqual(self.stored(found), in_order(rows, 0, 1))
                self.assertEqual(self.send(found, "POST", path, csv_of(changes[:5]), Idempotency_Key="a")[0], 422)
                # A refused one is no script that was kept, and its id is free.
                self.assertEqual(self.send(found, "POST", path, '"a\nb",x,1,y,1\n', Idempotency_Key="b")[0], 422)
                self.assertEqual(self.send(found, "POST", path, '"a\nb",1,1,y,1\n', Idempotency_Key="b")[0], 200)

    def test_refusals_are_those_of_texts_without_breaks(self) -> None:
        """The same field, with a space in place of the break, is refused alike; the line is that in which the record begins."""
        rows, upserts = "/rows", "/upserts?set=note&add=qty"
        wrong = [
            (rows, 'Oslo,x,1,"{}",true,00'), (rows, 'Oslo,"{}",1,y,true,00'), (rows, 'Oslo,1,1,"{}",yes,00'),
            (rows, 'Oslo,1,1,"{}",true,0'), (rows, 'Oslo,1,1,"{}",true'), (rows, '"{}"'),
            (rows, f'Oslo,1,1,"{{}}{"z" * 255}",true,00'),
            (rows, f'Oslo,{2**63},1,"{{}}",true,00'), (upserts, 'Oslo,x,"{}",1'), (upserts, 'Oslo,1,"{}",x'),
            (upserts, 'Oslo,1,"{}"'), ("/upserts?set=city", 'Oslo,1,"{}"'), ("/upserts?add=note", '"{}",1,2'),
            ("/upserts?set=none", 'Oslo,1,"{}"'), ("/upserts?set=note" + "&set=note" * 16, 'Oslo,1,"{}"' + ",x" * 16),
        ]  # fmt: skip
        with server(script=TABLE) as found:
            for path, record in wrong:
                good = '"Ø\nx",1,1,n,false,00\n' if path == rows else None
                with_break, with_space = (self.send(found, "POST", path, (good or "") + record.format(text) + "\n") for text in ("\n", " "))
                line = 3 if good else 1
                self.assertEqual((with_break[0], with_break[1].get("line", line)), (422, line), (record, with_break))
                kept = ("number", "name", "item", "column", "status")
                # The second one is a script if no record has a break.
                self.assertEqual(*[[said.get(name) for name in kept] for _, said in (with_break, with_space)], record)
                if "value" in with_break[1] and "\n" in with_break[1]["value"]:
                    self.assertEqual(with_break[1]["value"].replace("\n", " "), with_space[1]["value"])
            # The refusal with the lowest number of a batch, as in a script.
            status, said = self.send(found, "POST", rows, '"a\nb",1\nOslo,x,1,y,true,00\n')
            self.assertEqual((status, said["number"], said["item"], said["line"]), (422, 6, 2, 3))
            two = [["a\nb", 1, 1, "x", True, "00"], ["a\nb", 1, 1, "x" * 256, True, "00"]]
            status, said = self.send(found, "POST", rows, json.dumps(two), "application/json")
            self.assertEqual((status, said["row"], said["column"]), (422, 2, "note"))
            for body, line, part in (
                ('Oslo,1,1,"a\nb,true,00\n', 1, "the quoted field that begins in line 1 is not closed, and goes on to line 2"),
                ('Oslo,1,1,x,true,00\n\nOslo,1,1,"a\nb"c,true,00\n', 3, "goes on after its closing quote in line 4"),
            ):
                status, said = self.send(found, "POST", rows, body)
                self.assertEqual((status, said["line"]), (400, line))
                self.assertIn(part, said["reason"])
            status, said = self.send(found, "POST", rows, '"a\nb",1,1,x,true,00\nOslo,1,1,x\ry,true,00\n')
            self.assertEqual((status, said["line"], said["reason"][:36]), (422, 3, "a carriage return is outside of quot"))
            many = "".join(f'"a\nb",{number},1,x,true,00\n' for number in range(65_537))
            status, said = self.send(found, "POST", rows, many)
            self.assertEqual((status, said["name"]), (422, "TooMany"))
            self.assertEqual(self.stored(found), [])
            self.assertEqual(self.send(found, "POST", rows, many[: many.rindex('"a\nb"')])[0], 200)
        with server(script=b"") as found:
            for method, path in (("POST", "/rows"), ("POST", "/rows?header=1"), ("POST", "/upserts?add=qty"), ("DELETE", "/row?key=a%0Ab")):
                self.assertEqual(self.send(found, method, path, '"a\nb",1\n')[0], 409)
            self.assertEqual(self.send(found, "GET", "/row?key=a%0Ab")[0], 409)

    def test_keys_and_bounds_have_them(self) -> None:
        rows = in_order([[text, number, len(text), text * 2, True, ""] for text in TEXTS for number in (1, 2)], 0, 1)
        with server(script=TABLE + b"index building on note\n") as found:
            found.run(b"drop building\n")
            self.assertEqual(self.send(found, "POST", "/rows", csv_of(rows))[0], 200)
            found.run(b"index building on note\n")
            for text in TEXTS:
                key = quote(text)
                self.assertEqual(self.stored(found, f"/row?key={key}&key=2"), [[text, 2, len(text), text * 2, True, ""]])
                self.assertEqual(self.send(found, "GET", f"/row?key={key}&key=3")[0], 404)
                for tree, place, value in (("primary", 0, text), ("by_note", 3, text * 2)):
                    bound = quote(value)
                    later = [row for row in rows if row[place].encode() >= value.encode()]
                    earlier = [row for row in rows if row[place].encode() < value.encode()]
                    for words, wanted in ((f"from={bound}", later), (f"to={bound}", earlier), (f"from={bound}&to={bound}", [])):
                        notes = [row[3] for row in in_order(wanted, 3, 0, 1)] if tree == "by_note" else [row[3] for row in wanted]
                        column = 0 if tree == "by_note" else 3
                        for limit in ("", "&limit=3"):
                            got = found.json(f"/rows/{tree}?{words}{limit}")
                            self.assertEqual([row[column] for row in got["rows"]], notes[:3] if limit else notes)
                        sums = found.json(f"/sums/{tree}?of=qty&{words}")["rows"]
                        groups = {row[place]: (2, 2 * row[2]) for row in in_order(wanted, place)}
                        self.assertEqual([(name, (count, total)) for count, total, name in sums], [*groups.items()])
            first = found.json("/sums/primary?of=qty&from=%0A&limit=1")
            self.assertEqual((first["rows"], first["more"], first["columns"]), ([[2, 2, "\n"]], True, ["count", "sum", "city"]))
            for path, status, part in (
                ("/row?key=a%0Ab", 400, "1 value, and the key has 2 (city, id)"),
                ("/row?key=a%0Ab&key=1%0Aend", 400, "column 'id' (int)"),
                ("/rows/primary?from=a%0Ab&from=x", 400, "column 'id' (int): 'x' is no whole number"),
                ("/rows/building?from=a%0Ab", 409, "building"),
                ("/rows/none?to=a%0Ab", 404, "none"),
                ("/sums/primary?of=none&to=a%0Ab", 422, "'none' is no column"),
                ("/sums/primary?of=qty&columns=7&to=a%0Ab", 422, ""),
                ("/sums/building?of=id&to=a%0Ab", 409, "building"),
            ):
                found_status, said = self.send(found, "GET", path)
                self.assertEqual((path, found_status), (path, status))
                self.assertIn(part, said["reason"])
            for text in TEXTS:
                for _ in range(2):
                    answer = b"batch 1 by_note:1 building:0\n" if not any(one in text for one in "\r\n") else b"batch 1\n"
                    self.assertEqual(self.send(found, "DELETE", f"/row?key={quote(text)}&key=1", Idempotency_Key=str(TEXTS.index(text))), (200, answer))
            self.assertEqual(self.send(found, "DELETE", "/row?key=a%0Ab&key=x")[0], 422)
            self.assertEqual(self.send(found, "DELETE", "/row?key=a%0Ab")[0], 422)
            self.assertEqual(self.stored(found), [row for row in rows if row[1] == 2])


if __name__ == "__main__":
    unittest.main()
