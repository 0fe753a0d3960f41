"""Debian's packages that the tools, their tests and the guards need: the one list of them, for Debian 12."""

from __future__ import annotations

import os
import shutil
import subprocess
from dataclasses import dataclass
from pathlib import Path
from typing import Iterable

# The Python that Debian's packages serve comes first, whichever others there are.
PATH = os.pathsep.join(["/usr/bin", os.environ.get("PATH", os.defpath)])


@dataclass(frozen=True)
class Package:
    """A package by its name, and something by which one sees that it is there: a command, a module of Python or a
    file."""

    name: str
    command: str = ""
    module: str = ""
    file: str = ""

    def is_there(self) -> bool:
        if self.command:
            return shutil.which(self.command, path=PATH) is not None
        return has_module(self.module) if self.module else Path(self.file).exists()


PACKAGES = (
    Package("bind9-dnsutils", command="delv"),
    Package("black", module="black"),
    Package("debhelper", command="dh"),
    Package("dh-python", command="dh_python3"),
    Package("dns-root-data", file="/usr/share/dns/root.ds"),
    Package("dnsviz", command="dnsviz"),
    Package("dpkg-dev", command="dpkg-buildpackage"),
    Package("fish", command="fish"),
    Package("g++", command="c++"),
    Package("gcc", command="cc"),
    Package("graphviz", command="dot"),
    Package("ldnsutils", command="ldns-signzone"),
    Package("libc6-dev", file="/usr/include/stdio.h"),
    Package("mandoc", command="mandoc"),
    Package("mypy", module="mypy"),
    Package("nsd", command="nsd"),
    Package("parallel", command="parallel"),
    Package("pylint", module="pylint"),
    Package("python3-cryptography", module="cryptography"),
    Package("python3-distributed", module="distributed"),
    Package("python3-dnspython", module="dns"),
    Package("python3-jinja2", module="jinja2"),
    Package("python3-jsonschema", module="jsonschema"),
    Package("python3-matplotlib", module="matplotlib"),
    Package("python3-protobuf", module="google.protobuf"),
    Package("python3-rich", module="rich"),
    Package("python3-zstandard", module="zstandard"),
    Package("tcpdump", command="tcpdump"),
    Package("tshark", command="tshark"),
    Package("unbound", command="unbound"),
    Package("unbound-host", command="unbound-host"),
    Package("valgrind", command="valgrind"),
    Package("zsh", command="zsh"),
)


def has_module(name: str) -> bool:
    python = shutil.which("python3", path=PATH)
    asks = f"import importlib.util, sys; sys.exit(importlib.util.find_spec({name!r}) is None)"
    return python is not None and subprocess.run([python, "-c", asks], check=False).returncode == 0


def named(names: Iterable[str]) -> list[Package]:
    """The packages of these names, each of which has to be in the list."""
    known = {package.name: package for package in PACKAGES}
    return [known[name] for name in names]


def lacking(packages: Iterable[Package] = PACKAGES) -> list[str]:
    """The names of those that aren't there."""
    return [package.name for package in packages if not package.is_there()]


def line_for(names: Iterable[str]) -> str:
    """The line that installs them."""
    return " ".join(["apt-get install --yes --no-install-recommends", *names])
