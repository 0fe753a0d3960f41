"""The guards: each with its command, what it needs, and how its count is read."""

from __future__ import annotations

import os
from dataclasses import dataclass
from pathlib import Path

from .counts import Reading, of_closing_line, of_unittest

TREE = Path(__file__).resolve().parent.parent.parent
TESTS = TREE / "tools" / "tests"
PROGRAM = "crates/dnssec_check/out/dnssec_check"
ROWS = "crates/dnsv_rows/out/dnsv_rows"
LIBRARY = "out/library/libdnssec_check.so.1"
# What is built by what.
BUILT_BY = {PROGRAM: "make", LIBRARY: "make library", ROWS: "cd crates/dnsv_rows && rt run < /dev/null"}

OF_TOOLS = ("python3-cryptography", "python3-dnspython")
OF_TESTS = (
    *OF_TOOLS,
    "debhelper",
    "dh-python",
    "dns-root-data",
    "dpkg-dev",
    "g++",
    "gcc",
    "graphviz",
    "ldnsutils",
    "libc6-dev",
    "mandoc",
    "python3-distributed",
    "python3-jinja2",
    "python3-jsonschema",
    "python3-protobuf",
    "python3-rich",
    "python3-zstandard",
    "tshark",
    "valgrind",
)
# What the linters read of other packages is there when they look.
OF_LINT = ("black", "mypy", "pylint", *OF_TOOLS, "python3-jinja2", "python3-rich")
# What the readers take that tools/fuzz tries: a minute of a processor each, or as FUZZ_SECONDS says; of a few a third.
FUZZ_SECONDS, FUZZ_SEED = int(os.environ.get("FUZZ_SECONDS", "60")), "1"
OF_FEW_LINES = ("questions", "records")
# The tests that take longest.
LONG = ("tests/judge", "tests/program")


@dataclass(frozen=True)
class Guard:
    """A command, run at the top of the repository; it needs Debian's packages, built files and commands of the kit.

    It is left out where a file of `only_with` isn't built, which nothing does that runs before it.
    """

    name: str
    words: tuple[str, ...]
    count: Reading = of_closing_line
    packages: tuple[str, ...] = ()
    built: tuple[str, ...] = ()
    kit: tuple[str, ...] = ()
    only_with: tuple[str, ...] = ()


GATE = Guard("gate", ("rt", "ci"), kit=("rt",))


def of_tests(folder: Path) -> Guard:
    """The tests of a folder; those that lie in none have the name of the tools."""
    words = ("python3", "-m", "unittest", *sorted(module_of(file) for file in folder.glob("test_*.py")))
    name = "tests" if folder == TESTS else f"tests/{folder.name}"
    only_with = (LIBRARY,) if folder.name == "library" else ()
    words = ("env", "-C", str(TESTS), "PYTHONPATH=..", *words)
    return Guard(name, words, of_unittest, OF_TESTS, built=(PROGRAM,), only_with=only_with)


def module_of(file: Path) -> str:
    return ".".join(file.relative_to(TESTS).with_suffix("").parts)


def of_page(page: str, *titles: str, packages: tuple[str, ...] = OF_TOOLS) -> Guard:
    """A page that needs neither root nor a network namespace, or these sections of it."""
    return Guard(page, ("tools/pages", "--installed", page, *titles), packages=packages, built=(PROGRAM,))


def of_library(page: str, *packages: str) -> Guard:
    """A page over the library that is built and not installed."""
    needed = (*packages, "python3-cryptography")
    return Guard(page, ("tools/pages", page), packages=needed, only_with=(LIBRARY,))


def of_loans(crate: str) -> Guard:
    return Guard(f"does-not-compile/{crate}", ("tools/does-not-compile", crate), kit=("rattle",))


def of_fuzz(target: str) -> Guard:
    """A reader of the tools, tried on the inputs that one seed makes."""
    seconds = FUZZ_SECONDS // 3 if target in OF_FEW_LINES else FUZZ_SECONDS
    words = ("tools/fuzz", target, "--seconds", str(seconds), "--seed", FUZZ_SEED)
    return Guard(
        f"fuzz/{target}", words, packages=(*OF_TOOLS, "python3-protobuf", "python3-zstandard"), built=(PROGRAM,)
    )


def guards() -> list[Guard]:
    """All but the gate. Those that take long come first, so that none of them is left for the end."""
    folders = [TESTS, *sorted(folder.parent for folder in TESTS.glob("*/__init__.py"))]
    fuzzed = sorted(file.stem for file in (TREE / "tools" / "fuzzing" / "targets").glob("[a-z]*.py"))
    crates = sorted(folder.parent.name for folder in (TREE / "crates").glob("*/does-not-compile"))
    return [
        *sorted(map(of_tests, folders), key=lambda guard: guard.name not in LONG),
        Guard("faults", ("tools/faults",), packages=("gcc", "libc6-dev"), built=(PROGRAM, ROWS)),
        *map(of_fuzz, fuzzed),
        *map(of_loans, crates),
        Guard("lint", ("tools/lint",), packages=OF_LINT),
        Guard("examples", ("tools/examples",), built=(PROGRAM,)),
        of_page("README.md", "dnssec_check"),
        of_page("docs/INSTALL.md", "To install program and tools"),
        of_page("docs/VERDICTS.md"),
        of_page("docs/COMPACT.md"),
        of_page("docs/EXPLANATION.md"),
        of_page("docs/AUDITING.md", packages=(*OF_TOOLS, "parallel")),
        of_page("docs/ODD.md"),
        of_library("docs/LIBRARY.md", "gcc", "libc6-dev"),
        of_library("docs/NOTEBOOK.md", "python3-matplotlib"),
        of_page("examples/README.md"),
    ]
