"""What pyproject.toml cannot say: the wheel carries the proved library for one kind of machine, in the form that this kind can use.

The file comes from host/build, or from the folder that MERELSTOF_LIB names.
"""

import os
import pathlib
import platform
import tempfile

from setuptools import Distribution, setup
from setuptools.command.build_py import build_py
from setuptools.errors import SetupError

try:
    from setuptools.command.bdist_wheel import bdist_wheel
except ImportError:  # before setuptools had it
    from wheel.bdist_wheel import bdist_wheel

ROOT = pathlib.Path(__file__).resolve().parent.parent.parent
LIB = pathlib.Path(os.environ.get("MERELSTOF_LIB") or ROOT / "target" / "host" / "lib")
# The library is x86-64: another machine cannot load it, and runs serve under an emulator.
NAMES = ["libpractice.so"] if platform.machine() == "x86_64" else [".x86-64/serve", "serve"]


class WithLibrary(build_py):
    def run(self):
        super().run()
        found = next((LIB / name for name in NAMES if (LIB / name).is_file()), None)
        if found is None:
            raise SetupError(f"{NAMES[-1]} is not in {LIB}: run host/build first, or let MERELSTOF_LIB name its folder")
        lib = pathlib.Path(self.build_lib, "merelstof", "lib")
        self.mkpath(str(lib))
        self.copy_file(str(found), str(lib / found.name))


class ForOneMachine(Distribution):
    def has_ext_modules(self):
        return True


class ForAnyPython(bdist_wheel):
    def get_tag(self):
        return "py3", "none", super().get_tag()[2]


# What setuptools leaves behind would stand in the sources, and go into the next wheel.
with tempfile.TemporaryDirectory() as left:
    setup(
        distclass=ForOneMachine,
        cmdclass={"build_py": WithLibrary, "bdist_wheel": ForAnyPython},
        options={"build": {"build_base": left}, "egg_info": {"egg_base": left}},
    )
