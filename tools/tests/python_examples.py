"""Tests of the programs of examples/python: what they keep is compared with plain Python on the same data, and each is run as a reader runs it."""

import os
import random
import subprocess
import sys
import tempfile
import unittest
from importlib import import_module
from importlib.util import module_from_spec, spec_from_file_location
from pathlib import Path
from typing import Any

from .clients import library

client: Any = import_module("betable")
TOP = Path(__file__).resolve().parents[2]
EXAMPLES = TOP / "examples/python"


def setUpModule() -> None:
    library()


def example(name: str) -> Any:
    """A program of the examples as a module."""
    spec = spec_from_file_location(name, EXAMPLES / f"{name}.py")
    assert spec is not None and spec.loader is not None
    module = module_from_spec(spec)
    sys.modules[name] = module
    spec.loader.exec_module(module)
    return module


def run(name: str, *words: str | Path) -> str:
    """What a program of the examples prints."""
    environment = {**os.environ, "PYTHONPATH": str(TOP / "clients/python"), "PYTHONDONTWRITEBYTECODE": "1"}
    ended = subprocess.run([sys.executable, EXAMPLES / f"{name}.py", *words], capture_output=True, text=True, env=environment, timeout=120)
    if ended.returncode:
        raise AssertionError(ended.stderr)
    return ended.stdout


class Examples(unittest.TestCase):
    def setUp(self) -> None:
        folder = tempfile.TemporaryDirectory()
        self.addCleanup(folder.cleanup)
        self.folder = Path(folder.name)


class Lengths(unittest.TestCase):
    def test_each_program_has_fewer_than_80_lines(self) -> None:
        programs = list(EXAMPLES.glob("*.py"))
        self.assertEqual([path.name for path in programs if len(path.read_text(encoding="utf-8").splitlines()) >= 80], [])
        self.assertEqual(len(programs), 2)


class MetricStore(Examples):
    def readings(self, store: Any, count: int) -> list[Any]:
        dice = random.Random(9)
        return [store.Reading(dice.randrange(7), dice.randrange(50), dice.randrange(-2_000, 9_500)) for _ in range(count)]

    def test_it_keeps_what_the_readings_say(self) -> None:
        """Also after it was closed between two parts of them, which share minutes."""
        metrics = example("metric_store")
        readings, path = self.readings(metrics, 2_000), str(self.folder / "metrics.table")
        for part in (readings[:900], readings[900:]):
            with metrics.open_store(path) as store:
                self.assertEqual(metrics.ingest(store, part), len(part))
        with metrics.open_store(path) as store:
            self.assertEqual(metrics.ingest(store, []), 0)
            for device in range(7):
                wanted = []
                for minute in range(10, 40):
                    values = [reading.value for reading in readings if reading[:2] == (device, minute)]
                    if values:
                        wanted.append((minute, len(values), sum(values) / len(values), min(values), max(values)))
                self.assertEqual(list(metrics.summaries(store, device, 10, 40)), wanted)
            of_minutes = {minute: [reading.value for reading in readings if reading.minute == minute] for minute in range(10, 40)}
            self.assertEqual(metrics.means(store, 10, 40), {minute: sum(values) / len(values) for minute, values in of_minutes.items()})
            alarms = {reading[:2] for reading in readings if reading.value >= metrics.ALARM}
            self.assertEqual({(device, minute) for minute, device, *_ in store.scan("with_alarms")}, alarms)
            rows = {reading[:2] for reading in readings}
            self.assertEqual(metrics.expire(store, 30), sum(minute < 30 for _, minute in rows))
            self.assertEqual([row[:2] for row in store.scan()], sorted(key for key in rows if key[1] >= 30))

    def test_it_runs_as_a_program(self) -> None:
        lines = run("metric_store", self.folder / "metrics.table", "20000").splitlines()
        self.assertIn("mean at noon: {720: ", lines[-1])


class Catalogue(Examples):
    def setUp(self) -> None:
        super().setUp()
        if client.session._packed is None:
            self.skipTest("the extension is not built: texts with line breaks are not put")
        for name, text in {
            "excel.csv": "\ufeffsku;name;price;qty;active\r\nA-1;\"Tea\r\ngreen\";6215,29;3;WAHR\r\nA-2;=SUM(A1);2;0;FALSCH\r\nA-3;Tee 😀;0,5;1;WAHR\r\n",
            "pandas.csv": ",sku,name,price,qty,active\n0,B-1,Mug,12.5,4.0,True\n1,B-2,,3.0,,False\n",
            "postgres.tsv": "sku\tname\tprice\tqty\tactive\nC-1\tTeapot\t900\t\\N\tt\nA-2\tTin\t100\t7\tf\n",
            "mysql.csv": '"sku","name","price","qty","active"\n"D-1","Jug, ""x""","250","NULL","1"\n"D-2","Jar","300","2","0"\n',
        }.items():
            (self.folder / name).write_text(text, encoding="utf-8", newline="")
        old = "sku,name,price,qty,active\nE-1,Käse,120,5,true\nE-2,Brot,x,5,true\nE-3,Öl,100,12 Stk,true\nE-4,Salz,100,1,vielleicht\n"
        (self.folder / "old.csv").write_bytes(old.encode("cp1252"))

    def test_it_takes_in_the_files_of_each_program(self) -> None:
        printed = run("catalogue", self.folder).splitlines()
        counts = [line.split(": ")[1] for line in printed[:5]]
        self.assertEqual(counts, ["3 articles", "2 articles", "2 articles", "2 articles", "1 articles"])
        self.assertEqual([line.split(":")[1] for line in printed[5:8]], [" column 3 'price' (int)", " column 4 'qty' (int)", " column 5 'active' (flag)"])
        self.assertEqual(printed[8:], ["9 articles in all, 3 sold out"])
        self.assertEqual((self.folder / "old.wrong").read_text(encoding="utf-8").count("\n"), 4)
        catalogue = example("catalogue")
        with catalogue.new_catalogue() as full:
            full.load_csv(self.folder / "catalogue.csv")
            self.assertEqual(full.get("A-1"), ("A-1", "Tea\r\ngreen", 621_529, 3, True))
            self.assertEqual(full.get("A-2"), ("A-2", "Tin", 100, 7, False))
            self.assertEqual(full.get("B-1"), ("B-1", "Mug", 1_250, 4, True))
            self.assertEqual(full.get("D-1"), ("D-1", 'Jug, "x"', 250, 0, True))
            self.assertEqual([article.sku for article in catalogue.named(full, "Te")], ["A-1", "C-1", "A-3"])
            self.assertEqual([sku for sku, *_ in full.scan("sold_out")], ["B-2", "C-1", "D-1"])


if __name__ == "__main__":
    unittest.main()
