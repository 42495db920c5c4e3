"""The prompt: a table that is tried by hand, in memory or in the file of a durable table.

    python3 -m betable shell                    # a table in memory
    python3 -m betable shell stock.table        # a durable table

    betable> table 16 1024 256 1 id:int city:text qty:int
    betable> batch
        ...> put 1,Oslo,30
        ...> end
    betable> scan primary
        ...> go

A line is a command of the language (docs/SCRIPT.md), whose block goes on to its closing line, or a command of the prompt, which begins with a point: `.help`
lists them. What is wrong is said with what to write instead. docs/HOW_TO.md has an example.

| Name | What it is |
|---|---|
| `run(words)` | the prompt, of the words of its command line |
| `Shell` | the prompt over a table and an input |

`prompt.py` has the commands, `input.py` reads lines and completes words, `text.py` draws tables and trees in characters, and `files.py` reads and writes files.
"""

from .prompt import Shell, run

__all__ = ["Shell", "run"]
