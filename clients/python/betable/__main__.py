"""The commands of the package, by `python3 -m betable`: `shell [PATH]`, `serve PATH --port N`, `copy OLD NEW` and `convert OLD NEW`."""

import argparse
import sys

from .durable import conversions, copies
from .shell import prompt

SERVE = "Serves a durable table by HTTP. docs/SERVICE.md has its endpoints, and docs/OPERATING.md what whoever runs it has to know."


def main() -> int:
    parser = argparse.ArgumentParser(prog="python3 -m betable", description="A table engine for heavy ingest.")
    commands = parser.add_subparsers(dest="command", required=True)
    prompt.add_words(commands.add_parser("shell", help="a prompt over a table", description=prompt.DESCRIPTION))
    words = commands.add_parser("serve", help="a durable table by HTTP", description=SERVE)
    copies.add_words(commands.add_parser("copy", help="a durable table in a new file, with other columns", description=copies.DESCRIPTION))
    conversions.add_words(commands.add_parser("convert", help="a table of an earlier version in a new file", description=conversions.DESCRIPTION))
    if sys.argv[1:2] != ["serve"]:
        given = parser.parse_args()
        return {"copy": copies.run, "convert": conversions.run, "shell": prompt.run}[given.command](given)
    try:
        from .server import serve
    except ModuleNotFoundError as fault:
        if fault.name not in ("aiohttp", "prometheus_client"):
            raise
        print(f"betable serve: {fault.name} is not installed: 'apt-get install python3-aiohttp python3-prometheus-client'", file=sys.stderr)
        return 1
    serve.add_words(words)
    return serve.run(parser.parse_args())


if __name__ == "__main__":
    sys.exit(main())
