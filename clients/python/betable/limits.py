"""The limits of the engine (docs/SCRIPT.md, Limits). Written by tools/generate from the constants of crates/."""

MOST_SCRIPT_BYTES = 67_108_864  # of a script of the program
MOST_MESSAGES = 65_536  # of a batch
MOST_COLUMNS, MOST_KEY_COLUMNS = 16, 4
MOST_INDEXES, MOST_ON, MOST_INCLUDED = 16, 4, 8
MOST_OPERATIONS = 16  # of an upsert
MOST_TEXT_BYTES = 255  # of a text, and of bytes
FANOUTS, LEAVES = range(4, 64 + 1), range(2, 1_024 + 1)
BUFFERS, BUFFERS_IN_BYTES = range(1, 4_096 + 1), range(1, 1_048_576 + 1)
