"""One page of HTML for verdicts: the sentences, a picture of each chain, and the records. It loads nothing, and what
strangers wrote is text in it."""
from dataclasses import dataclass
from importlib import resources
from typing import Any, Callable, List, Optional, Sequence, Tuple

from ..asking.faults import escaped, lacking
from ..asking.moments import moment_text
from .drawn import chain_of
from .explanation import Explanation
from .picture import Picture, pictures_of
from .said import Said
from .sentences import sentence, why

PAGE, TEMPLATES = "page.html", "templates"
HEAD, MANY = "Verdicts of DNSSEC", 20  # questions, from which on a page has its contents in front
SVG = "<svg "  # what a picture begins with, behind which the template names it


@dataclass
class Entry:
    """A verdict: what is asked, the verdict in words, the capture's name and the moment, and what explains it, None
    where there is no verdict."""

    question: str
    said: str
    capture: str
    moment: int
    told: Optional[Explanation]
    odd: Sequence[Said] = ()


@dataclass
class Chain:
    """What explains a verdict, as the page has it: why it isn't secure, the picture, and what each line says."""

    why: List[Said]
    picture_markup: Any
    width: float
    broken_at: Optional[int]
    lines: List[Said]


@dataclass
class Verdict:
    question: str
    said: str
    capture: str
    moment: str
    chain: Optional[Chain]
    odd: Sequence[Said]


def library() -> Any:
    """Imported where a page is asked for, so that verdicts do without it."""
    try:
        import jinja2
    except ImportError as fault:
        raise lacking("jinja2", "--html", fault) from fault
    return jinja2


def markup(text: str) -> Any:
    """HTML that is taken as it is."""
    from markupsafe import Markup

    return Markup(text)


def template_text(name: str) -> str:
    return resources.files(__package__).joinpath(TEMPLATES).joinpath(name).read_text("utf-8")


def shown(value: Any) -> Any:
    """What anybody wrote with what can't be shown as `\\xNN`; that is escaped for HTML behind this, and markup
    isn't."""
    return escaped(value) if isinstance(value, str) and not hasattr(value, "__html__") else value


def page_of(entries: Sequence[Entry], captures: Sequence[Tuple[str, List[str]]]) -> str:
    """The page: its entries, and the records of each capture, a line each, by the capture's name."""
    verdicts = verdicts_of(entries)
    page: str = template_of(PAGE, template_text).render(
        title=title_of(entries), verdicts=verdicts, captures=listed(captures), has_contents=len(entries) >= MANY
    )
    return page


def template_of(name: str, text_of: Callable[[str], str]) -> Any:
    """A template by its name, and those that it includes: whatever they print is escaped."""
    jinja = library()
    environment = jinja.Environment(
        loader=jinja.FunctionLoader(text_of),
        autoescape=True,
        finalize=shown,
        undefined=jinja.StrictUndefined,
        trim_blocks=True,
        lstrip_blocks=True,
        keep_trailing_newline=True,
    )
    return environment.get_template(name)


def listed(captures: Sequence[Tuple[str, List[str]]]) -> List[Tuple[str, Any]]:
    """The records of each capture as one text."""
    return [(name, markup("\n").join(map(shown, lines))) for name, lines in captures]


def title_of(entries: Sequence[Entry]) -> str:
    """The first question and its capture, by which a page is known among others."""
    if not entries:
        return HEAD
    more = f" and {len(entries) - 1} more" if len(entries) > 1 else ""
    return f"{entries[0].question} of {entries[0].capture}{more}: {HEAD}"


def verdicts_of(entries: Sequence[Entry]) -> List[Verdict]:
    """The verdicts with their pictures, which are laid out at once."""
    told = [entry.told for entry in entries if entry.told]
    pictures = iter(pictures_of([chain_of(each) for each in told]))
    return [verdict_of(entry, next(pictures) if entry.told else None) for entry in entries]


def verdict_of(entry: Entry, picture: Optional[Picture]) -> Verdict:
    chain = None
    if entry.told and picture:
        lines = [sentence(entry.told, line) for line in entry.told.lines]
        place = None if picture.broken_at is None else round(100 * picture.broken_at)
        chain = Chain(why(entry.told), markup(picture.svg[len(SVG) :]), picture.width, place, lines)
    return Verdict(entry.question, entry.said, entry.capture, moment_text(entry.moment), chain, entry.odd)
