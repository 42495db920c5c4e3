"""Tables on several machines: replicas of one table, and a table that is divided among shards.

    from betable import cluster

    with cluster.Replicas("redis://127.0.0.1") as table:        # on each machine: the same table
        table.put([(1, "Oslo", 30), (2, "Bergen", 20)])         # in the log of the server when the call returns
        table.scan()

    shards = [cluster.ProcessShard() for _ in range(3)]         # a process each, here or on other machines
    with cluster.Sharded(shards, [(250_000,), (500_000,)]) as table:
        table.table("id:int city:text qty:int")
        table.put((number, "Oslo", 30) for number in range(1_000_000))

Replicas run the scripts of one ordered log, in a stream of Redis or a table of PostgreSQL, so all of them have the same trees; each answers reads, and any of
them can be lost, and a replica has the calls of a session. Shards have the rows of one range of the key each, for a table that needs more memory than one
machine has, and a table among them has the calls on rows and columns.

| Name | What it is |
|---|---|
| `Replicas(url, name=.., reads=.., patience=.., checkpoint_bytes=.., make=..)` | a replica, with `once`, `catch_up`, `checkpoint`, `trim`, `position` |
| `Unanswered`, `ReplyForgotten`, `Diverged` | why a call of a replica has no reply |
| `Unreachable`, `UnusableLog` | why its log cannot be used |
| `Sharded(shards, bounds)` | a table among shards, whose ranges end at the bounds |
| `ProcessShard(command=.., patience=..)` | a shard in a process, on this machine or another one |
| `ShardLost`, `ShardEnded` | a shard that is gone |

docs/CLUSTER.md says what is promised, and what happens when something fails. `replicas.py` has the replica and `logs.py` its logs; `sharded.py` divides rows
among shards, and `shard.py` is the process of one.
"""

from .logs import Unreachable, UnusableLog
from .replicas import Diverged, Replicas, ReplyForgotten, Unanswered
from .sharded import ProcessShard, Sharded, ShardEnded, ShardLost

__all__ = [
    "Diverged",
    "ProcessShard",
    "Replicas",
    "ReplyForgotten",
    "ShardEnded",
    "ShardLost",
    "Sharded",
    "Unanswered",
    "Unreachable",
    "UnusableLog",
]
