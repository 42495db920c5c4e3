"""Durable tables: a session whose table is in a file.

    from betable import durable

    with durable.open("stock.table") as table:
        if not table.trees():                                   # a new file has no table yet
            table.table("id:int city:text qty:int")
        table.put([(1, "Oslo", 30), (2, "Bergen", 20)])         # on disk when the call returns
        with table.group():                                     # all of these calls, or none
            table.upsert(1, add={"qty": -5})
            table.delete(2)
        table.once("order 17", "batch\\nups 1,add,qty,-1\\nend\\n")  # run once, however often it is sent
        table.checkpoint()                                      # the state in place of the changes, which is also done by itself
        table.backup("stock.backup")

A call that changes the table returns when the change is synced. After a crash of the process, or a loss of power, the table has all calls that returned, each
of them whole. Reads take as long as those of a session. The file is that of `betable_engine --keep`, and of the clients in C and Rust.

| Name | What it is |
|---|---|
| `open(path)` | opens or creates a table, a `Durable`; also `betable.open` |
| `Durable` | the table: the calls of a session, and `group`, `once`, `checkpoint`, `backup`, `number`, `close` |
| `copy(old, new, add={..}, rename={..}, drop=[..])` | copies a table with other columns; also `python3 -m betable copy OLD NEW` |
| `convert(old, new)` | makes a table of a file of an earlier version; also `python3 -m betable convert OLD NEW` |
| `RolledBack`, `InDoubt` | why a call was not kept, or may have been |
| `RequestReused` | why `once` does not reply |
| `IndexBuilding` | why no checkpoint is written |
| `InUse`, `NotATable`, `NewerFormat`, `OtherEngine`, `Corrupt` | why a file is not opened |

docs/DURABLE.md says what is promised, and what each exception means. `table.py` has the table, `file_calls.py` the calls on its file, `file_requests.py` reads
the requests in it, `copies.py` has `copy`, and `conversions.py` `convert`.
"""

from ..errors import Corrupt, InDoubt, IndexBuilding, InUse, NewerFormat, NotATable, OtherEngine, RequestReused, RolledBack
from .conversions import convert
from .copies import copy
from .table import Durable, open as open

# Without `open`, which would hide that of Python.
__all__ = [
    "Corrupt",
    "Durable",
    "InDoubt",
    "InUse",
    "IndexBuilding",
    "NewerFormat",
    "NotATable",
    "OtherEngine",
    "RequestReused",
    "RolledBack",
    "convert",
    "copy",
]
