"""betable from Python: a table that lives between scripts.

    import betable

    with betable.Session() as session:
        session.table("id:int city:text qty:int")
        session.put((number, "Bergen, west", 10) for number in range(100_000))
        session.batch([betable.upsert(7, add={"qty": 5}), betable.delete(8)])
        session.upsert_columns({"id": [6, 7]}, add={"qty": 1})
        session.get(7)                          # (7, 'Bergen, west', 16)
        session.scan("primary", (3,), (6,))     # the rows of the keys 3, 4 and 5, as tuples
        session.index("by_city", on="city", include="qty")
        session.sums("by_city", 1, "qty")       # [(99999, 999997, 'Bergen, west')]

The library is libbt_c.so, in the folder that BETABLE_LIBRARY names, or else beside this package, in out/ of the repository, where bin/build_c builds it, or
where the Debian package has it. docs/SCRIPT.md has the language, and docs/PYTHON.md the calls and their errors.

`Engine` has the same calls on a table in a process of its own, the program betable_engine, whose threads share the work (docs/ENGINE.md). `open` has them on a
durable table, which is in a file.

Without the extension `_packed`, calls on values go by scripts, and a warning says so.

Packages of its own, each of which says at its top what it is for, have the same calls: `betable.durable` has tables that are kept on disk, `betable.cluster`
tables on several machines, `betable.server` the server by HTTP and `betable.shell` the prompt.
"""

from pathlib import Path

from .calls import MOST_MESSAGES, Calls
from .durable import open as open
from .engine import Engine
from .errors import (
    Corrupt, EngineEnded, InDoubt, IndexBuilding, InUse, NewerFormat, NotATable, OtherEngine, OutOfMemory, Refused, RequestReused, RolledBack, RowError,
    RowTypeError, RowValueError,
)  # fmt: skip
from .messages import OPERATIONS, Message, delete, field, put, record, upsert, upsert_form
from .packed import Usage
from .reasons import Problem, Reason
from .replies import Reply
from .schema import Tree, TreeColumn, Trees
from .session import Session

# A packed package has the file beside this one, and a checkout at its top.
_VERSION = Path(__file__).parent / "VERSION"
__version__ = (_VERSION if _VERSION.exists() else Path(__file__).parents[3] / "VERSION").read_text().strip()

# Without `open`, which would hide that of Python.
__all__ = [
    "MOST_MESSAGES",
    "OPERATIONS",
    "Calls",
    "Corrupt",
    "Engine",
    "EngineEnded",
    "InDoubt",
    "InUse",
    "IndexBuilding",
    "Message",
    "NewerFormat",
    "NotATable",
    "OtherEngine",
    "OutOfMemory",
    "Problem",
    "Reason",
    "Refused",
    "Reply",
    "RequestReused",
    "RolledBack",
    "RowError",
    "RowTypeError",
    "RowValueError",
    "Session",
    "Tree",
    "TreeColumn",
    "Trees",
    "Usage",
    "__version__",
    "delete",
    "field",
    "put",
    "record",
    "upsert",
    "upsert_form",
]
