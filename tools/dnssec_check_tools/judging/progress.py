"""A bar of progress, on a terminal alone."""
import contextlib
import sys
from typing import Any, Callable, Iterator, Optional, TextIO


@contextlib.contextmanager
def progress(total: int) -> Iterator[Callable[[], None]]:
    """What to call for each capture that is done. Where lines go to the terminal themselves, there is no bar."""
    shown = bar_of() if total > 1 and is_terminal(sys.stderr) and not is_terminal(sys.stdout) else None
    if shown is None:
        yield lambda: None
        return
    with shown:
        task = shown.add_task("captures", total=total)
        yield lambda: shown.advance(task)


def is_terminal(stream: Optional[TextIO]) -> bool:
    return stream is not None and stream.isatty()


def bar_of() -> Any:
    """None where the package rich isn't there."""
    try:
        from rich import console, progress as parts
    except ImportError:
        return None
    columns = (parts.BarColumn(), parts.MofNCompleteColumn(), parts.TimeElapsedColumn(), parts.TimeRemainingColumn())
    return parts.Progress(*columns, console=console.Console(stderr=True), redirect_stdout=False, transient=True)
