"""What the tools of this folder share: runs of a program under the library refuse.c, which refuses requests and starts."""

import subprocess
import sys
from pathlib import Path

HERE = Path(__file__).resolve().parent
SECONDS = 20

# Each way to refuse, in the order of their numbers in an order, and the place in COUNT_FILE of the count that it applies to.
SETTINGS = [("REFUSE_AT", 0), ("REFUSE_FROM", 0), ("REFUSE_START_AT", 1), ("REFUSE_START_FROM", 1)]
COUNT_BYTES = 8


def built_library(folder):
    """The library, compiled into a folder."""
    library = f"{folder}/refuse.so"
    subprocess.run(["cc", "-shared", "-fPIC", "-O2", "-o", library, HERE / "refuse.c"], check=True)
    return library


def counts_in(path):
    """The numbers that COUNT_FILE got: of requests, of starts, and of requests that were counted apart."""
    counts = Path(path).read_bytes()
    return [int.from_bytes(counts[at : at + COUNT_BYTES], sys.byteorder) for at in range(0, len(counts), COUNT_BYTES)]


def end_of(command, library, settings, **how):
    """How a run under the library with these settings ends, or None where it does not."""
    environment = {"LD_PRELOAD": library, **settings}
    try:
        return subprocess.run(command, capture_output=True, timeout=SECONDS, env=environment, **how)
    except subprocess.TimeoutExpired:
        return None


def described(ended):
    if ended is None:
        return f"no end within {SECONDS} seconds"
    by = f"signal {-ended.returncode}" if ended.returncode < 0 else f"status {ended.returncode}"
    return f"{by}, standard error {ended.stderr!r}, standard output {ended.stdout!r}"
