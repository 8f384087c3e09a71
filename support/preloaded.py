"""Libraries that are put before the C library: they note calls of a program, or have them fail."""

import os
import shutil
import subprocess

SUPPORT = os.path.dirname(os.path.abspath(__file__))


def compiled(name, folder):
    """Compiles the file NAME.c of support/ to a library in a folder, by the first C compiler that there is. Gives its path."""
    compiler = next((one for one in (os.environ.get("CC"), "cc", "gcc", "clang") if one and shutil.which(one)), None)
    if compiler is None:
        raise OSError("there is no C compiler (cc, gcc or clang)")
    library = os.path.join(folder, f"{name}.so")
    flags = ["-O2", "-Wall", "-Wextra", "-shared", "-fPIC"]
    subprocess.run([compiler, *flags, "-o", library, f"{SUPPORT}/{name}.c", "-ldl"], check=True)
    return library
