"""A picture of the chain as SVG, which Graphviz lays out."""
import concurrent.futures
import re
import shutil
import subprocess
from typing import Dict, Iterable, List, NamedTuple, Optional, Sequence

from ..asking.faults import Failure
from ..started import processors

from .chain import ANCHOR, FAILS, FOLLOWS, MISSING, UNDER, Box, Chain, Edge, Key

DOT = "dot"
# How a box or an edge is drawn so that it can be told without colour; colours are given by the page, by class.
DOUBLE = "peripheries=2"  # the edge of a trust anchor
BOX_STYLES = {FAILS: "style=bold penwidth=2.5", MISSING: "style=dashed", FOLLOWS: "style=dotted"}
EDGE_STYLES = {
    FAILS: "style=bold penwidth=2.5",
    MISSING: "style=dashed penwidth=1.5",
    FOLLOWS: "style=dotted",
    UNDER: "style=invis weight=1",
}
FRONT = """digraph chain {
graph [rankdir=TB nodesep=0.25 ranksep=0.35 margin=0 bgcolor=transparent fontname="Helvetica" fontsize=12]
node [shape=box margin="0.1,0.05" height=0.3 fontname="Helvetica" fontsize=11]
edge [arrowsize=0.7 fontname="Helvetica" fontsize=10]
"""
FRAME = "class=zone; style=rounded; margin=8"
# A frame's name is a box without lines in it, beside which edges have to pass.
NAMED = 'shape=plaintext margin=0 fontname="Helvetica-Bold" fontsize=12 class=name'
PICTURE = re.compile(r"<svg .*?</svg>\n?", re.DOTALL)
# What Graphviz writes besides: comments, titles, which would be numbers of nodes, and ids, which each picture of a page
# would have again.
BESIDES = re.compile(r"<!--.*?-->\n?|<title>.*?</title>\n?|(?<=<g) id=\"[^\"]*\"", re.DOTALL)
WIDTH = re.compile(r"<svg width=\"([0-9.]+)pt\"")
TOGETHER = 50  # pictures that one process lays out before another one is worth its start
WIDE = 26  # a longer name is broken at a dot
NO_BREAK = "\u00a0"  # a blank that stays beside the text of an edge


def quoted(lines: Iterable[str]) -> str:
    """Lines as the text of DOT, in which a backslash and an ampersand begin something."""
    text = (line.replace("&", "&amp;").replace("\\", "\\\\").replace('"', '\\"') for line in lines)
    return '"' + "\\n".join(text) + '"'


def broken(line: str) -> List[str]:
    """The line in pieces that aren't wide, parted behind dots of names and at blanks."""
    pieces, rest = [], line
    while len(rest) > WIDE:
        place = max(rest.rfind(".", 0, WIDE), rest.rfind(" ", 0, WIDE)) + 1
        place = place if place > 1 else WIDE
        pieces.append(rest[:place].rstrip(" "))
        rest = rest[place:]
    return pieces + [rest] if rest else pieces


def dot_of(chain: Chain) -> str:
    """The chain as the text of DOT. Its nodes have numbers, so only quoted texts are what strangers wrote."""
    numbers = {key: f"n{number}" for number, key in enumerate(chain.boxes)}
    text = FRONT
    for number, (zone, boxes) in enumerate(chain.zones().items()):
        text += f"subgraph cluster_{number} {{\n{FRAME}\n"
        text += f"z{number} [label={quoted(broken('zone ' + zone))} {NAMED}]\n"
        text += "".join(node(numbers, box) for box in boxes) + "}\n"
    text += "".join(node(numbers, box) for box in chain.boxes.values() if box.zone is None)
    return text + "".join(edge(numbers, each) for each in chain.edges.values()) + "}\n"


def node(numbers: Dict[Key, str], box: Box) -> str:
    lines = [piece for line in box.all_lines() for piece in broken(line)]
    style = f"{BOX_STYLES.get(box.state, '')} {DOUBLE if box.mark == ANCHOR else ''}"
    return f'{numbers[box.key]} [label={quoted(lines)} class="{box.state} {box.mark}" {style}]\n'


def edge(numbers: Dict[Key, str], each: Edge) -> str:
    pieces = [f"{NO_BREAK}{piece}{NO_BREAK}" for line in each.text.splitlines() for piece in broken(line)]
    label = f" label={quoted(pieces)}" if pieces else ""
    style = EDGE_STYLES.get(each.state, "")
    return f"{numbers[each.tail]} -> {numbers[each.head]} [class={each.state} {style}{label}]\n"


def program() -> str:
    """The path of Graphviz."""
    path = shutil.which(DOT)
    if path is None:
        raise Failure("a picture needs the program dot (Debian: graphviz)")
    return path


class Picture(NamedTuple):
    """A picture as an element of HTML, how wide it is where its text has the size that it was laid out for, in points,
    and how far to the right its first break is, as a part of that; None where nothing breaks."""

    svg: str
    width: float
    broken_at: Optional[float]


def pictures_of(chains: Sequence[Chain]) -> List[Picture]:
    """The pictures. Graphviz is begun once for many, and several times side by side where there are very many."""
    size = max(TOGETHER, -(-len(chains) // processors()))
    shares = [chains[first : first + size] for first in range(0, len(chains), size)]
    with concurrent.futures.ThreadPoolExecutor(max(1, len(shares))) as threads:
        return [picture for pictures in threads.map(laid_out, shares) for picture in pictures]


def laid_out(chains: Sequence[Chain]) -> List[Picture]:
    text = "".join(map(dot_of, chains))
    done = subprocess.run([program(), "-Tsvg"], input=text.encode(), capture_output=True, check=False)
    svgs = PICTURE.findall(done.stdout.decode())
    if done.returncode or len(svgs) != len(chains):
        raise Failure(f"{DOT}: {done.stderr.decode(errors='replace').strip() or 'a picture lacks'}")
    return [picture_of(chain, svg) for chain, svg in zip(chains, svgs)]


def picture_of(chain: Chain, svg: str) -> Picture:
    found = WIDTH.search(svg)
    width = float(found[1]) if found else 0
    place = place_of(svg, list(chain.boxes).index(chain.broken)) if chain.broken is not None else None
    return Picture(BESIDES.sub("", svg), width, place / width if place is not None and width else None)


def place_of(svg: str, number: int) -> Optional[float]:
    """How far to the right the middle of the box is that has the number."""
    found = re.search(rf"<title>n{number}</title>\n.*?<text [^>]*? x=\"([-0-9.]+)\"", svg, re.DOTALL)
    return float(found[1]) if found else None
