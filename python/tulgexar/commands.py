"""The tools as commands of an installed package: `tulgexar-live` is live.py, and so on."""

import functools
import importlib
import pathlib
import sys

from tulgexar.words import run


def command(name):
    """Runs the tool of a name by the words of the command line. Its usage line has the command's own name."""
    module = importlib.import_module(f"tulgexar.{name}")
    run(module.main, module.__doc__.replace(f"usage: {name}.py", f"usage: {pathlib.Path(sys.argv[0]).name}"))


annotate = functools.partial(command, "annotate")
answers = functools.partial(command, "answers")
arg = functools.partial(command, "arg")
bench_test = functools.partial(command, "bench_test")
chart = functools.partial(command, "chart")
client_test = functools.partial(command, "client_test")
client_trace = functools.partial(command, "client_trace")
explain = functools.partial(command, "explain")
image = functools.partial(command, "image")
lift = functools.partial(command, "lift")
live = functools.partial(command, "live")
step = functools.partial(command, "step")
