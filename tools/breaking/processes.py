"""Processes that have an end: commands by their time, and servers by the block that they serve."""

from __future__ import annotations

import contextlib
import secrets
import socket
import subprocess
import time
from pathlib import Path
from typing import Iterator

SECONDS = 60  # that a command may take
SECONDS_TO_BEGIN, SECONDS_TO_END, SECONDS_TO_LOOK, SECONDS_TO_WRITE = 10.0, 5.0, 0.05, 30.0
MARKED = ("127.0.77.9", 5390)  # to where the datagram goes that ends a capture, and where nobody listens


class Broken(Exception):
    """A command that is needed fails, or a server doesn't begin."""


class Ran(str):
    """What a command printed on both streams."""


def ran(words: list[str], folder: Path, given: str = "", is_checked: bool = True) -> Ran:
    """What a command prints; one that takes too long is ended, and has printed what it had until then."""
    try:
        done = subprocess.run(
            words,
            input=given,
            stdout=subprocess.PIPE,
            stderr=subprocess.STDOUT,
            text=True,
            errors="replace",
            cwd=folder,
            timeout=SECONDS,
            check=False,
        )
    except subprocess.TimeoutExpired as late:
        if is_checked:
            raise Broken(f"{words[0]} took more than {SECONDS} seconds") from late
        return Ran(f"no answer within {SECONDS} seconds")
    if is_checked and done.returncode:
        raise Broken(f"{' '.join(words)}: {done.stdout.strip()}")
    return Ran(done.stdout)


@contextlib.contextmanager
def running(words: list[str], folder: Path) -> Iterator[subprocess.Popen[str]]:
    """A process that ends with the block; what it tells goes to a file beside what it reads."""
    log = folder / f"{Path(words[0]).name}.log"
    with open(log, "a", encoding="utf-8") as told:
        with subprocess.Popen(
            words, stdin=subprocess.DEVNULL, stdout=told, stderr=told, cwd=folder, text=True
        ) as process:
            try:
                yield process
            finally:
                ended(process)


def ended(process: subprocess.Popen[str]) -> None:
    process.terminate()
    try:
        process.wait(SECONDS_TO_END)
    except subprocess.TimeoutExpired:
        process.kill()


def wait_for_server(process: subprocess.Popen[str], address: tuple[str, int]) -> None:
    """Waits until somebody takes connections at the address."""
    last = time.monotonic() + SECONDS_TO_BEGIN
    while time.monotonic() < last:
        if process.poll() is not None:
            raise Broken(f"{process.args!r} ended at once")
        with contextlib.suppress(OSError), socket.create_connection(address, 1):
            return
        time.sleep(SECONDS_TO_LOOK)
    raise Broken(f"nobody serves {address[0]} port {address[1]}")


@contextlib.contextmanager
def captured(path: Path, what: str) -> Iterator[None]:
    """Keeps the packets of loopback to which the filter of tcpdump applies, as long as the block lasts. Behind it a
    datagram is sent by which one sees that all before it is written, however busy the machine is."""
    kept = f"({what}) or (udp dst port {MARKED[1]} and dst host {MARKED[0]})"
    words = ["tcpdump", "-i", "lo", "-U", "--immediate-mode", "-Z", "root", "-w", str(path), kept]
    with running(words, path.parent) as process:
        last = time.monotonic() + SECONDS_TO_BEGIN
        while not path.exists() or not path.stat().st_size:
            if process.poll() is not None or time.monotonic() > last:
                raise Broken("tcpdump doesn't begin")
            time.sleep(SECONDS_TO_LOOK)
        yield
        wait_for_packets(path)


def wait_for_packets(path: Path) -> None:
    """Waits until all is in the file that was sent until now."""
    mark, last = secrets.token_bytes(16), time.monotonic() + SECONDS_TO_WRITE
    with socket.socket(socket.AF_INET, socket.SOCK_DGRAM) as ahead:
        while time.monotonic() < last:
            ahead.sendto(mark, MARKED)
            for _ in range(10):
                if mark in path.read_bytes():
                    return
                time.sleep(SECONDS_TO_LOOK)
    raise Broken("tcpdump doesn't write what was sent")
