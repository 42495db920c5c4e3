"""Tests of the server's endpoints that change rows: rows as CSV with a header and as JSON, upserts, and deletes of a row; and of the reasons of refusals."""

import json
import random
import unittest
from typing import Any
from urllib.parse import quote

from .clients import library
from .service import python, server

TABLE = b"table 16 1024 256 2 city:text id:int qty:int low:int open:flag data:bytes\nindex by_qty on qty include low\nbuild by_qty 1\n"
NAMES = ["city", "id", "qty", "low", "open", "data"]
HARD = ["Oslo", "a,b", 'say "so"', "", "  ", ".", "end", "put 1", "æøå", "\ufeffx", "'x'", "\0", 'a,"b']


def setUpModule() -> None:
    library()


def rows_of(count: int) -> list[list[Any]]:
    dice, ints = random.Random(11), [0, -5, 2**63 - 1, -(2**63)]
    return [[dice.choice(HARD), number, dice.choice(ints), 7, dice.random() < 0.5, dice.choice(["", "00ff"])] for number in range(count)]


@unittest.skipIf(python() is None, "aiohttp is not installed: the server is not tested")
class Changes(unittest.TestCase):
    def send(self, found: Any, method: str, path: str, body: Any, kind: str = "text/csv", **headers: str) -> tuple[int, Any]:
        """The status of a request, and its JSON if it is no success."""
        given = body if isinstance(body, bytes) else body.encode()
        status, _, answer = found.ask(method, path, given, {"Content-Type": kind, **{name.replace("_", "-"): value for name, value in headers.items()}})
        return status, answer if status == 200 else json.loads(answer)

    def stored(self, found: Any) -> list[list[Any]]:
        return found.json("/rows/primary?limit=99999")["rows"]

    def test_rows_of_json_are_stored_as_they_are(self) -> None:
        rows = rows_of(300)
        objects = [dict(zip(NAMES, row)) for row in rows]
        shuffled = [dict(random.Random(1).sample(list(one.items()), 6)) for one in objects]
        for body, kind in (
            (json.dumps(objects), "application/json"),
            (json.dumps(shuffled, ensure_ascii=False), "application/json; charset=utf-8"),
            (json.dumps(rows), "application/json"),
            ("\n\n".join(map(json.dumps, objects)) + "\n", "application/x-ndjson"),
            ("\r\n".join(map(json.dumps, rows)), "application/jsonl"),
        ):
            with server(script=TABLE) as found:
                self.assertEqual(self.send(found, "POST", "/rows", body, kind), (200, b"batch 300 by_qty:300\n"))
                self.assertEqual(self.stored(found), sorted(rows, key=lambda row: (row[0].encode(), row[1])))
                self.assertEqual(self.send(found, "POST", "/rows", b"[]", "application/json"), (200, b"batch 0 by_qty:0\n"))

    def test_a_wrong_value_of_json_is_told_with_its_row(self) -> None:
        row = dict(zip(NAMES, ["Oslo", 1, 2, 3, True, "00"]))
        with server(script=TABLE) as found:
            for change, column, part in (
                ({"qty": 3.0}, "qty", "column 'qty' (int): 3.0 is not a whole number: decimals are stored as ints of a fixed unit"),
                ({"qty": None}, "qty", "null is not a whole number: there is no null"),
                ({"qty": True}, "qty", "true is not a whole number"),
                ({"qty": "5"}, "qty", '"5" is not a whole number'),
                ({"open": 1}, "open", "1 is not true or false"),
                ({"city": 5}, "city", "5 is not a string"),
                ({"data": "xy"}, "data", "letter 1 of 'xy' is no hexadecimal digit"),
                ({"data": []}, "data", "[] is not a string of hexadecimal digits"),
                ({"qty": 2**63}, "qty", "'9223372036854775808' is over the largest int"),
                ({"city": "x" * 256}, "city", "256 bytes, and a text has at most 255"),
                ({"city": "\ud800"}, None, "half of a surrogate pair"),
                ({"town": 5}, None, "'town' is no column here"),
            ):
                lines = f"\n{json.dumps(row)}\n\n{json.dumps(row | change)}"
                for body, kind, place in ((json.dumps([row, row | change]), "application/json", "row"), (lines, "application/jsonl", "line")):
                    status, said = self.send(found, "POST", "/rows", body, kind)
                    self.assertEqual((status, said.get("column")), (422, column))
                    self.assertIn(part, said["reason"])
                    if part[:4] != "half":
                        self.assertEqual(said[place], 2 if place == "row" else 4)
            for body, status, part in (
                (json.dumps(row), 422, "a body of JSON is a list of rows"),
                (json.dumps([[1, 2]]), 422, "2 values, and a row here has 6"),
                (json.dumps([5]), 422, "5 is no row"),
                (json.dumps([{"city": "x"}]), 422, "'id' is missing"),
                ("[{]", 400, "the body is no JSON"),
                ("[" * 100_000, 400, "the body is no JSON"),
                (b"\xff", 400, "the body is no JSON"),
            ):
                found_status, said = self.send(found, "POST", "/rows", body, "application/json")
                self.assertEqual(found_status, status)
                self.assertIn(part, said["reason"])
            self.assertEqual(self.stored(found), [])

    def test_a_header_says_the_order_of_the_columns(self) -> None:
        with server(script=TABLE) as found:
            for body in (
                "city,id,qty,low,open,data\nOslo,1,2,3,true,00\n",
                '\ufeff\r\n\nid,data,"city",open,low,qty\r\n1,00,Oslo,true,3,2\r\n\r\n',
                'id,data,city,open,low,qty\n1,00,"Oslo",true,3,2',
            ):
                self.assertEqual(self.send(found, "POST", "/rows?header=1", body), (200, b"batch 1 by_qty:1\n"))
                self.assertEqual(self.stored(found), [["Oslo", 1, 2, 3, True, "00"]])
                found.run(b"batch\ndel Oslo,1\nend\n")
            for body, line, part in (
                ("city,id,qty,low,open\n", 1, "'data' is missing"),
                ("\ncity,id,qty,low,open,data,town\n", 2, "'town' is not one of them"),
                ("city,id,qty,low,open,data,id\n", 1, "'id' is there twice"),
                ("\n\n", None, "the body has no header"),
                ("id,city,qty,low,open,data\n1,Oslo,2,3,true,00\n\nx,Oslo,2,3,true,00\n", 4, "column 2 'id' (int): 'x'"),
                ("id,city,qty,low,open,data\n1,Oslo,2\n", 2, "3 fields, and a put has 6"),
                ("city,id,qty,low,open,data\n\nOslo,1,2,3,maybe,00\n", 3, "column 5 'open' (flag): 'maybe'"),
            ):
                status, said = self.send(found, "POST", "/rows?header=1", body)
                self.assertEqual((status, said.get("line")), (422, line), said)
                self.assertIn(part, said["reason"])
            # A header that was not announced is told as one.
            status, said = self.send(found, "POST", "/rows", "city,id,qty,low,open,data\nOslo,1,2,3,true,00\n")
            self.assertEqual((status, said["line"]), (422, 1))
            self.assertIn("These are the names of the columns: leave the line out, or send it with header=1", said["reason"])
            self.assertNotIn("names of the columns", self.send(found, "POST", "/rows", "Oslo,x,2,3,true,00\n")[1]["reason"])
            self.assertEqual(self.stored(found), [])
        with server(script=b"") as found:
            for path, kind in (("/rows?header=1", "text/csv"), ("/rows", "application/json"), ("/upserts?add=qty", "text/csv")):
                self.assertEqual(self.send(found, "POST", path, "[]", kind)[0], 409)

    def test_upserts_are_those_of_a_script(self) -> None:
        dice = random.Random(12)
        changes = [(dice.choice(HARD), dice.randrange(20), dice.randrange(100), dice.randrange(-50, 50), dice.choice(HARD)) for _ in range(400)]
        table = b"table 16 1024 256 2 city:text id:int qty:int low:int name:text\n"
        path = "/upserts?add=qty&min=low&set=name&max=qty"
        names = ["city", "id", "qty", "low", "name", "qty"]
        with server(script=table) as wanted:
            fields = [[one if isinstance(one, int) else '"' + one.replace('"', '""') + '"' for one in change] for change in changes]
            lines = [f"ups {city},{number},add,qty,{qty},min,low,{low},set,name,{name},max,qty,{qty}\n" for city, number, qty, low, name in fields]
            wanted.run(f"batch\n{''.join(lines)}end\n".encode())
            rows = self.stored(wanted)
        records = [",".join(map(str, [*one, one[2]])) + "\n" for one in fields]
        objects = [{"city": one[0], "id": one[1], "qty": one[2], "low": one[3], "name": one[4]} for one in changes]
        for body, kind, words in (
            ("".join(records), "text/csv", ""),
            ("\n".join(records), "text/csv", ""),
            (",".join(names) + "\n" + "".join(records), "text/csv", "&header=1"),
            (json.dumps(objects), "application/json", ""),
            ("\n".join(map(json.dumps, objects)), "application/x-ndjson", ""),
            (json.dumps([[*one, one[2]] for one in changes]), "application/json", ""),
        ):
            with server(script=table) as found:
                self.assertEqual(self.send(found, "POST", path + words, body, kind), (200, b"batch 400\n"))
                self.assertEqual(self.stored(found), rows)
        # In another order of the columns than that of the query.
        with server(script=table) as found:
            body = "low,name,id,city\n-5,x,1,Oslo\n"
            self.assertEqual(self.send(found, "POST", "/upserts?set=name&min=low&header=1", body), (200, b"batch 1\n"))
            self.assertEqual(self.stored(found), [["Oslo", 1, 0, -5, "x"]])

    def test_wrong_upserts_change_nothing_and_name_their_line(self) -> None:
        with server(script=TABLE) as found:
            for path, body, status, line, part in (
                ("/upserts", "", 400, None, "upserts name their operations and columns in the query, as add=qty"),
                ("/upserts?plus=qty", "", 400, None, "'plus' is no parameter here"),
                ("/upserts?add=qty%0Aend", "", 400, None, "is no name"),
                ("/upserts?add=qty", "Oslo,1,5\n\nOslo,1\n", 422, 3, "2 fields, and an upsert here has 3 (city, id, qty): Oslo,1"),
                ("/upserts?add=qty", "Oslo,1,5\n\nOslo,x,5\n", 422, 3, "column 2 'id' (int): 'x'"),
                ("/upserts?add=qty", "Oslo,1,5\nOslo,1,x\n", 422, 2, "operation 1, column 3 'qty' (int): 'x'"),
                ("/upserts?add=city", "Oslo,1,5\n", 422, None, "'city' is a column of the key"),
                ("/upserts?add=open", "Oslo,1,5\n", 422, None, "'open' is flag, and add needs an int"),
                ("/upserts?add=town", "Oslo,1,5\n", 422, None, "'town' is no column"),
                ("/upserts?add=qty&header=1", "city,qty\nOslo,1\n", 422, 1, "'id' is missing"),
                ("/upserts?add=qty&header=1", "city,qty,id\nOslo,1,1\nOslo,1,x\n", 422, 3, "column 2 'id' (int): 'x'"),
                ("/upserts?add=qty", 'Oslo,1,5\n"Oslo,1,5\n', 400, 2, "the quoted field that begins in line 2 is not closed"),
            ):
                found_status, said = self.send(found, "POST", path, body)
                self.assertEqual((found_status, said.get("line")), (status, line), said)
                self.assertIn(part, said["reason"])
            self.assertEqual(self.send(found, "POST", "/upserts?add=town", "[]", "application/json")[0], 422)
            self.assertEqual(self.send(found, "POST", "/upserts?add=qty", '[{"city": "Oslo", "id": 1}]', "application/json")[1]["row"], 1)
            self.assertEqual(self.stored(found), [])

    def test_upserts_with_an_id_are_made_once(self) -> None:
        with server(script=TABLE) as found:
            for _ in range(3):
                self.assertEqual(self.send(found, "POST", "/upserts?add=qty", "Oslo,1,5\n", Idempotency_Key="a"), (200, b"batch 1 by_qty:1\n"))
            self.assertEqual(self.stored(found)[0][2], 5)
            self.assertEqual(self.send(found, "POST", "/upserts?add=qty", "Oslo,1,6\n", Idempotency_Key="a")[0], 422)

    def test_a_row_is_deleted_by_its_key(self) -> None:
        with server(script=TABLE + b'batch\nput "a,""b",1,2,3,true,00\nput Oslo,1,2,3,true,00\nend\n') as found:
            path = f"/row?key={quote(HARD[12])}&key=1"
            self.assertEqual(self.send(found, "DELETE", path, b""), (200, b"batch 1 by_qty:1\n"))
            self.assertEqual([row[0] for row in self.stored(found)], ["Oslo"])
            # It is gone, so another time deletes nothing.
            self.assertEqual(self.send(found, "DELETE", path, b""), (200, b"batch 1 by_qty:0\n"))
            for wrong, status, part in (
                ("/row", 400, "a key has a parameter 'key' for each of its columns"),
                ("/row?key=Oslo", 422, "1 field, and a del has 2 (city, id)"),
                ("/row?key=Oslo&key=x", 422, "column 2 'id' (int): 'x'"),
                ("/row?key=Oslo&key=1%0Aput", 422, "column 2 'id' (int): '1 put' is no whole number"),
            ):
                found_status, said = self.send(found, "DELETE", wrong, b"")
                self.assertEqual(found_status, status)
                self.assertIn(part, said["reason"])
            self.assertEqual(len(self.stored(found)), 1)
            self.assertEqual(self.send(found, "DELETE", "/row?key=Oslo&key=1", b"", Idempotency_Key="b"), (200, b"batch 1 by_qty:1\n"))
            found.run(b"batch\nput Oslo,1,2,3,true,00\nend\n")
            self.assertEqual(self.send(found, "DELETE", "/row?key=Oslo&key=1", b"", Idempotency_Key="b"), (200, b"batch 1 by_qty:1\n"))
            self.assertEqual(len(self.stored(found)), 1)

    def test_a_server_that_only_reads_refuses_each_of_them(self) -> None:
        with server("--read-only", script=b"") as found:
            for method, path in (("POST", "/rows"), ("POST", "/upserts?add=qty"), ("DELETE", "/row?key=1")):
                self.assertEqual(self.send(found, method, path, b"")[0], 403)

    def test_the_first_reason_of_a_script_is_in_a_header(self) -> None:
        script = b"get x,1\nbatch\nput Oslo,1,2,3,true,00\n\nput \xc3\xb8,1,\xc3\xb8,3,true,00\nend\nfoo\n"
        with server(script=TABLE) as found:
            status, headers, body = found.ask("POST", "/run", script)
            self.assertEqual((status, headers["Betable-Refused"], body), (200, "2", b"none\nrefused 6 BadField 2\nrefused 1 Syntax\n"))
            self.assertEqual(headers["Betable-Reason"], "line 5: column 3 'qty' (int): '\\xf8' is no whole number")
            self.assertNotIn("Betable-Reason", found.ask("POST", "/run", b"get x,1\n")[1])
            refused = json.loads(found.ask("POST", "/run", script, {"Accept": "application/json"})[2])["replies"][1]
            self.assertEqual((refused["line"], refused["refused"]["line"], refused["refused"]["item"]), (2, 5, 2))
            # Of a table that the script itself makes, and of a load.
        with server(script=b"") as found:
            headers = found.ask("POST", "/run", b"table 16 1024 256 1 id:int\nload\nid\n1\n\nx\n.\n")[1]
            self.assertEqual(headers["Betable-Reason"], "line 6: column 1 'id' (int): 'x' is no whole number")
