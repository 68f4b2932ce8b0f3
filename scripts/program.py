"""Which program the scripts beside this file run."""

import os
import pathlib
import subprocess
import sys

TOP = pathlib.Path(__file__).resolve().parent.parent


def program(arguments):
    """The path of the program that the one argument names, or else of the one that scripts/program.sh finds."""
    script = os.path.basename(sys.argv[0])
    if arguments == ["--help"]:
        print(sys.modules["__main__"].__doc__)
        sys.exit()
    if len(arguments) > 1:
        sys.exit(f"{script}: more than one argument")
    if arguments:
        path = os.path.abspath(arguments[0])
    else:
        found = subprocess.run([TOP / "scripts/program.sh"], stdout=subprocess.PIPE, text=True, check=False)
        if found.returncode:
            sys.exit(1)
        path = found.stdout.removesuffix("\n")
    if not os.path.isfile(path) or not os.access(path, os.X_OK):
        sys.exit(f"{script}: {path} isn't a program")
    return path
