"""How guards are run: side by side, each with its whole output in one piece."""

from __future__ import annotations

import os
import shutil
import subprocess
import sys
import time
from concurrent.futures import ThreadPoolExecutor, as_completed
from dataclasses import dataclass
from typing import Iterable, Iterator

from .counts import BROKEN, Count
from .guards import BUILT_BY, TREE, Guard
from .packages import PATH, lacking, line_for, named


# What a shell begins in the background ignores interrupts, and so would the tests that send them.
INTERRUPTIBLE = ("env", "--default-signal=INT")


@dataclass(frozen=True)
class Result:
    guard: Guard
    printed: str
    count: Count
    seconds: float

    def line(self) -> str:
        return f"{self.guard.name}: {self.count} ({self.seconds:.0f} s)"


def environment(lanes: int) -> dict[str, str]:
    """Debian's Python comes first, and a guard that works in lanes has so many."""
    return {**os.environ, "PATH": PATH, "LANES": str(lanes)}


def unbuilt(paths: Iterable[str]) -> list[str]:
    """Which of these files aren't built, a line each that says what builds it."""
    return [f"{path} isn't built: {BUILT_BY[path]}" for path in paths if not (TREE / path).is_file()]


def is_left_out(guard: Guard, names: list[str]) -> bool:
    """Whether there is nothing here that the guard could try, and its own name isn't among these."""
    return guard.name not in names and bool(unbuilt(guard.only_with))


def left_out(guard: Guard) -> str:
    """The line that says so; it counts nothing."""
    return f"{guard.name}: left out, {', '.join(unbuilt(guard.only_with))}"


def unmet(guard: Guard) -> list[str]:
    """What the guard needs that isn't there, a line each."""
    packages = lacking(named(guard.packages))
    lines = [f"the package {name} isn't there" for name in packages]
    if packages:
        lines.append(f"this installs what is missing: {line_for(lacking())}")
    lines += unbuilt((*guard.built, *guard.only_with))
    return lines + [
        f"the kit's command {name} isn't on the path" for name in guard.kit if not shutil.which(name, path=PATH)
    ]


def ran(guard: Guard, lanes: int) -> Result:
    """What came of the guard; one that lacks something hasn't passed."""
    missing = unmet(guard)
    if missing:
        return Result(guard, "".join(f"{line}\n" for line in missing), BROKEN, 0)
    begun = time.monotonic()
    done = subprocess.run(
        [*INTERRUPTIBLE, *guard.words],
        cwd=TREE,
        env=environment(lanes),
        stdin=subprocess.DEVNULL,
        stdout=subprocess.PIPE,
        stderr=subprocess.STDOUT,
        text=True,
        errors="replace",
        check=False,
    )
    count = guard.count(done.stdout, done.returncode)
    return Result(guard, done.stdout, count, time.monotonic() - begun)


def side_by_side(guards: list[Guard], lanes: int) -> Iterator[Result]:
    """The results, each as soon as it is there; each guard has a lane."""
    with ThreadPoolExecutor(lanes) as pool:
        waiting = [pool.submit(ran, guard, 1) for guard in guards]
        for each in as_completed(waiting):
            yield each.result()


def passed_through(guard: Guard) -> Result:
    """The same of one that takes an hour and has the machine for itself: each line is printed as it comes."""
    missing = unmet(guard)
    if missing:
        print("\n".join(missing))
        return Result(guard, "", BROKEN, 0)
    begun, lines = time.monotonic(), []
    with subprocess.Popen(
        guard.words,
        cwd=TREE,
        stdin=subprocess.DEVNULL,
        stdout=subprocess.PIPE,
        stderr=subprocess.STDOUT,
        text=True,
        errors="replace",
    ) as process:
        for line in process.stdout or ():
            sys.stdout.write(line)
            sys.stdout.flush()
            lines.append(line)
    printed = "".join(lines)
    return Result(guard, printed, guard.count(printed, process.returncode), time.monotonic() - begun)
