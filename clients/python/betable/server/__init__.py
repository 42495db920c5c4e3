"""The server of a durable table by HTTP, for programs in any language and on other machines.

    python3 -m betable serve stock.table --port 8470

    curl -s --data-binary $'batch\\nput 3,Alta,7\\nend\\n' localhost:8470/run
    curl -s 'localhost:8470/rows/primary?from=1&limit=50'

It needs aiohttp and prometheus_client (Debian's python3-aiohttp and python3-prometheus-client). Two processes work: one speaks HTTP, and the engine's runs the
scripts that wait and keeps them by one commit. A client that sends a request id has its script run once, also if it sends it again.

| Name | What it is |
|---|---|
| `serve.run(words)` | the server, of the words of its command line, until it is told to end |
| `serve.Service` | the endpoints |
| `engine.Engine` | the durable table in a process of its own, to which `Service` hands works |

docs/SERVICE.md has the endpoints, and what is promised; docs/OPERATING.md how to run it. `requests.py` reads what is asked and `bodies.py` the rows that are
sent, `answers.py` writes replies, `engine_table.py` has a table that the program betable_engine keeps, `backups.py` writes backups, `connections.py` watches
the connections, `notices.py` writes the log, and `page.html` is the page in the browser. This package imports none of them by itself, as most need aiohttp.
"""
