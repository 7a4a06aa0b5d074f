"""Makes a wheel or a source distribution of the Python package in the current folder:

    python_package.py sdist FOLDER
    python_package.py wheel FOLDER LIBRARY..

A wheel has the shared objects beside the module, and is tagged by the oldest glibc that they run on (PEP 600), as
auditwheel tags it: the newest version of glibc's that a symbol of theirs asks for. It is refused if they ask for another
library than glibc's.
"""

import re
import shutil
import subprocess
import sys
from pathlib import Path

from setuptools import Distribution, setup
from wheel.bdist_wheel import bdist_wheel

# What a manylinux wheel may ask the system for, of what a C or Rust library asks for (PEP 600).
ALLOWED = {"libc.so.6", "libm.so.6", "libdl.so.2", "libpthread.so.0", "librt.so.1", "libgcc_s.so.1", "ld-linux-x86-64.so.2"}

# Each such tag was given out from this glibc on.
LEAST = (2, 17)


def read_object(option, library):
    """What readelf says of a shared object."""
    return subprocess.run(["readelf", "-W", option, library], check=True, capture_output=True, text=True).stdout


def needed(library):
    """The libraries that one asks for."""
    return set(re.findall(r"\(NEEDED\).*\[(.*)\]", read_object("-d", library)))


def glibc(library):
    """The newest glibc that it asks for."""
    versions = re.findall(r"GLIBC_(\d+)\.(\d+)", read_object("-V", library))
    return max([LEAST, *((int(major), int(minor)) for major, minor in versions)])


class Native(Distribution):
    """A package with shared objects."""

    def has_ext_modules(self):
        return True


class NativeWheel(bdist_wheel):
    """A wheel with shared objects, for any Python."""

    def get_tag(self):
        return "py3", "none", self.plat_name


def make_wheel(folder, libraries):
    for library in libraries:
        others = needed(library) - ALLOWED - {Path(it).name for it in libraries}
        if others:
            sys.exit(f"python_package.py: {library} needs {', '.join(sorted(others))}")
        shutil.copy(library, Path("ucstore") / Path(library).name)
    major, minor = max(glibc(library) for library in libraries)
    setup(
        distclass=Native,
        cmdclass={"bdist_wheel": NativeWheel},
        script_args=["--quiet", "bdist_wheel", "--dist-dir", folder, f"--plat-name=manylinux_{major}_{minor}_x86_64"],
    )


def main():
    kind, folder, *libraries = sys.argv[1:]
    if kind == "sdist":
        setup(script_args=["--quiet", "sdist", "--dist-dir", folder])
    else:
        make_wheel(folder, libraries)


if __name__ == "__main__":
    main()
