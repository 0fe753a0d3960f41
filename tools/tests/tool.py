"""How the tests run a tool as a user does, and load it as a module."""
import functools
import importlib
import importlib.machinery
import importlib.util
import io
import pathlib
import subprocess
import sys
from unittest import mock

sys.dont_write_bytecode = True
TOOLS = pathlib.Path(__file__).resolve().parent.parent
DATA = TOOLS / "tests" / "data"
PROGRAM = TOOLS.parent / "crates" / "dnssec_check" / "out" / "dnssec_check"
PACKAGE = TOOLS / "dnssec_check_tools"
PACKAGED = ("capture", "judge", "verify")
sys.path.insert(0, str(TOOLS))  # a checkout has nothing installed


@functools.lru_cache(None)
def load(name):
    """The tool as a module: one of the package, or a script beside it."""
    if name in PACKAGED:
        return importlib.import_module(f"{PACKAGE.name}.{name}")
    loader = importlib.machinery.SourceFileLoader(f"tool_{name}", str(TOOLS / name))
    module = importlib.util.module_from_spec(importlib.util.spec_from_loader(loader.name, loader))
    sys.modules[loader.name] = module  # where dataclasses look their names up
    loader.exec_module(module)
    return module


def run(name, *words, given=b""):
    """The exit status, the standard output and the standard error of the tool, run in this process."""
    given, output, errors = (io.TextIOWrapper(io.BytesIO(octets)) for octets in (given, b"", b""))
    with mock.patch.multiple(sys, argv=[name], stdin=given, stdout=output, stderr=errors):
        try:
            status = load(name).main([str(word) for word in words])
        except SystemExit as end:
            status = end.code
    for stream in (output, errors):
        stream.flush()
    return status, output.buffer.getvalue(), errors.buffer.getvalue().decode()


def run_program(path, *words, given=b"", output=subprocess.PIPE, folder=None):
    """The same, by a process of its own, in a folder."""
    done = subprocess.run([str(path), *map(str, words)], input=given, stdout=output, stderr=subprocess.PIPE, cwd=folder)
    return done.returncode, done.stdout, done.stderr.decode()
