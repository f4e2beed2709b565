"""Where the package tulgexar is, on which the tools stand: python/, in a clone where nothing is installed. It isn't run by itself."""

import importlib
import pathlib
import sys

FOLDER = str(pathlib.Path(__file__).resolve().parent.parent / "python")

if FOLDER not in sys.path:
    sys.path.insert(0, FOLDER)


def stand_for(name, file):
    """Makes the file, whose module has this name, stand for the package's module of the file's name: as a program, and for who imports it."""
    module = importlib.import_module(f"tulgexar.{pathlib.Path(file).stem}")
    if name == "__main__":
        module.run(module.main, module.__doc__)
    sys.modules[name] = module
