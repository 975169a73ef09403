"""Libraries that stand before the C library's calls, as refuse.c, which refuses growths, and halt.c, which ends or fails changes of files."""
import os
import shutil
import subprocess


def built_library(name, folder):
    """The library of the source NAME.c beside this file, built in a folder. None where there is no C compiler."""
    compiler = shutil.which("cc")
    if compiler is None:
        return None
    built = os.path.join(folder, name + ".so")
    source = os.path.join(os.path.dirname(os.path.abspath(__file__)), name + ".c")
    subprocess.run([compiler, "-shared", "-fPIC", "-O1", source, "-o", built, "-ldl"], check=True)
    return built
