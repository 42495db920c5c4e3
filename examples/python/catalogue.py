#!/usr/bin/env python3
"""A catalogue that is kept up to date from the CSV files of several programs, and goes out as one CSV file.

    python3 examples/python/catalogue.py FOLDER

tools/from_csv makes the records of each file those of the table: decimals become cents, and words for true and false become flags. Records that are wrong all
the same are left out and told, and the others are put.
"""

import subprocess
import sys
from collections.abc import Iterator
from pathlib import Path
from typing import Any, NamedTuple

from betable import Refused, Session

FROM_CSV = Path(__file__).resolve().parents[2] / "tools/from_csv"
COLUMNS = {"sku": "text", "name": "text", "price": "int", "qty": "int", "active": "flag"}
# The file of each supplier, and what is special in it.
SUPPLIERS = {
    "excel.csv": ["--scale", "price=2", "--flag", "active=WAHR,FALSCH"],
    "pandas.csv": ["--scale", "price=2", "--scale", "qty=0", "--empty", "qty=0"],
    "postgres.tsv": ["--null", r"\N", "--empty", "qty=0", "--flag", "active"],
    "mysql.csv": ["--null", "qty=NULL", "--empty", "qty=0", "--flag", "active"],
    "old.csv": ["--encoding", "cp1252"],
}


class Article(NamedTuple):
    sku: str
    name: str
    cents: int
    qty: int
    is_active: bool


def new_catalogue() -> Session:
    """A catalogue without articles."""
    catalogue = Session()
    catalogue.table(COLUMNS)
    catalogue.index("by_name", on="name")
    catalogue.index("sold_out", on="sku", where=("qty", "<", 1))
    return catalogue


def take_in(catalogue: Session, file: Path, words: list[str]) -> Iterator[str]:
    """Puts the records of a supplier's file, and tells which are wrong. An article of a later file takes the place of the one before."""
    records, wrong = file.with_suffix(".records"), file.with_suffix(".wrong")
    with records.open("wb") as output:
        subprocess.run([FROM_CSV, file, "--key", "sku", "--columns", ",".join(COLUMNS), "--csv", *words], stdout=output, check=True)
    wrong.unlink(missing_ok=True)
    yield f"{file.name}: {catalogue.put_csv(records, rejects=wrong)} articles"
    if wrong.exists():
        try:
            catalogue.put_csv(wrong)
        except Refused as refused:
            yield from (f"  left out: {record.reason}" for record in refused.wrong)


def named(catalogue: Session, beginning: str) -> list[Article]:
    """The articles whose names begin with a text."""
    after = beginning[:-1] + chr(ord(beginning[-1]) + 1)
    found: list[Any] = catalogue.scan("by_name", (beginning,), (after,))
    rows: list[Any] = [catalogue.get(sku) for _, sku in found]
    return [Article(*row) for row in rows]


if __name__ == "__main__":
    folder = Path(sys.argv[1])
    with new_catalogue() as full:
        for name, special in SUPPLIERS.items():
            print(*take_in(full, folder / name, special), sep="\n")
        (folder / "catalogue.csv").unlink(missing_ok=True)
        print(f"{full.to_csv(folder / 'catalogue.csv')} articles in all, {len(full.scan('sold_out'))} sold out")
