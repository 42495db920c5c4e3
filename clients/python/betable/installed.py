"""Where the library and the program of the engine are."""

from __future__ import annotations

import os
from pathlib import Path

# The path in the Debian package.
SYSTEM_FOLDER = Path("/usr/lib/betable")


def path_of(name: str, variable: str, built: str, how: str) -> Path:
    """The file of a name in the folder that an environment variable names, or the first one of: beside this file, as in a wheel; where it is built in the
    repository; in the folder of the Debian package. `how` says where it comes from."""
    if folder := os.environ.get(variable):
        folders = [Path(folder)]
    else:
        here = Path(__file__).resolve().parent
        folders = [here, here.parents[2] / built, SYSTEM_FOLDER]
    for one in folders:
        if (one / name).is_file():
            return one / name
    where = " or ".join(str(one) for one in folders)
    raise FileNotFoundError(
        f"{name} is not in {where}: {how}, and {variable} names the folder that has it"
    )
