"""What pyproject.toml cannot say: the extension, which is optional, and the tag of the wheel, which has a library in it and so is of one platform.

    python3 clients/python/setup.py build_ext --inplace     # in a checkout: builds betable/_packed.abi3.so beside its source, as bin/build_c does

With the extension the wheel is for CPython 3.11 and later, whose stable interface (abi3) it uses. Without a C compiler or the headers of Python, the package is
built all the same: it is then for every Python, and its calls on values go by scripts.
"""

import os
from pathlib import Path
from typing import Any

from setuptools import Distribution, Extension, setup  # type: ignore

HERE = Path(__file__).resolve().parent
os.chdir(HERE)
# bin/package has the headers in a folder beside this file, and a checkout has them at its top.
INCLUDE = (HERE if (HERE / "include").exists() else HERE.parents[1]) / "include"
EXTENSION = Extension(
    "betable._packed",
    ["betable/_packed.c"],
    include_dirs=[str(INCLUDE)],
    depends=[str(INCLUDE / "betable.h"), str(INCLUDE / "betable_file.h")],
    # Most of its time goes into calls of Python, which -fno-plt makes direct. Without what a debugger reads, which would have the paths of this folder.
    extra_compile_args=["-std=c11", "-O3", "-fno-plt", "-g0"],
    py_limited_api=True,
    optional=True,
)
COMMANDS: dict[str, Any] = {}

try:
    from wheel.bdist_wheel import bdist_wheel  # type: ignore
except ImportError:
    pass  # only the wheel needs it
else:

    class WheelOfLibrary(bdist_wheel):  # type: ignore
        def get_tag(self) -> tuple[str, str, str]:
            platform = super().get_tag()[2]
            is_built = any(Path(self.bdist_dir).glob("betable/_packed.*.so"))
            return ("cp311", "abi3", platform) if is_built else ("py3", "none", platform)

    COMMANDS["bdist_wheel"] = WheelOfLibrary


class DistributionOfLibrary(Distribution):
    def has_ext_modules(self) -> bool:
        return True


setup(distclass=DistributionOfLibrary, cmdclass=COMMANDS, ext_modules=[EXTENSION])
