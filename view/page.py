"""The page: one HTML file that needs nothing from outside, and a small picture of some rows."""
from __future__ import annotations

import html
from typing import Iterator

import style
from boxes import Boxes
from layout import BLOCK, ROW, Layout, plan
from record import Reading
from svg import clip, escape
from tracks import EDGE, STRIPE, Tracks

HEAD = 46
# How wide and high a picture may be on A4 across, in millimetres, beside the head and a block of rows.
PAPER_WIDE, PAPER_HIGH = 277, 160
# A unit of a screen in millimetres.
UNIT = 25.4 / 96
ASKED = ("Up, down, Home and End choose an entry, h hides what comes next, Esc shows all. "
         "A click on a name dims the rest.")
KEY = [
    ("ready", "ready"), ("wants", "wants a fast mutex"), ("waits", "waits"), ("unknown", "unknown"),
    ("suspended", "suspended"), ("out", "out (found, not opened)"), ("doomed", "doomed"), ("cleaned", "cleaned"),
    ("idle", "a queue without calls"),
]

BOXES = [
    ("b plain", "a step"), ("b bad", "refused"), ("b owed", "owed"), ("b death", "deaths, closing servers"),
    ("b call", "interrupts and calls"),
]
STRIPES = [
    ("k fast", "holds a fast mutex"), ("k mutex", "owns a mutex"), ("k critical", "critical section"),
    ("k noted", "exit noted"),
]


def width_on_paper(layout: Layout) -> str:
    """How wide the pictures are on paper: a page takes the head and a whole block, and nothing is larger than on
    a screen."""
    rows = min(BLOCK, len(layout.shown))
    return f"{min(PAPER_WIDE, PAPER_HIGH * layout.width / (HEAD + rows * ROW), layout.width * UNIT):.1f}mm"


def head_shapes(reading: Reading, layout: Layout) -> list[str]:
    """The head: processes, names and priorities of threads, and what the other columns are."""
    found, last = [], None
    signs = int((layout.wide - 8) / 5.8)
    for thread in layout.threads:
        x = layout.lanes[thread.number] + STRIPE
        if thread.process != last:
            found.append(f'<text class="l" x="{x}" y="11">{clip(thread.lane.process or "kernel", signs)}</text>'
                         f'<path class="line" d="M{x - 6} 4v40"/>')
            last = thread.process
        below = f"t{thread.number}, {thread.lane.priority}"
        found.append(f'<text class="n w" data-k="t{thread.number}" x="{x}" y="26">{clip(thread.name, signs)}</text>'
                     f'<text class="l" x="{x}" y="40">{below}</text>')
    titles = [(layout.calls, "interrupts", layout.calls), (layout.objects_at, "objects", layout.objects),
              (layout.messages_at, "messages", layout.messages), (layout.boots_at, "of boot", layout.boots),
              (layout.printed, "printed line, as it is proved", True)]
    found += [f'<text class="l" x="{x}" y="11">{text}</text>' for x, text, there in titles if there]
    for thing, x in layout.boots.items():
        found.append(f'<text class="n l" data-k="o{thing.number}" x="{x - 10}" y="26">{clip(thing.name, 6)}</text>'
                     f'<text class="l" x="{x - 10}" y="40">{thing.number}</text>')
    return found


def rulers(layout: Layout, high: int) -> str:
    """Thin lines between the columns."""
    at = [layout.objects_at] * bool(layout.objects) + [layout.messages_at] * bool(layout.messages)
    at += [layout.boots_at] * bool(layout.boots) + [layout.printed]
    return "".join(f'<path class="line" d="M{x - 5} 0V{high}"/>' for x in at)


class Writer:
    """Writes the page of a reading, of the entries from `first` to `last`."""

    def __init__(self, reading: Reading, name: str, first: int, last: int) -> None:
        self.reading, self.name = reading, name
        self.layout = plan(reading, first, last)
        self.boxes, self.tracks = Boxes(reading, self.layout), Tracks(reading, self.layout)
        self.whole = first == 1 and last == len(reading.rows)
        self.range = f"entries {first} to {last} of {len(reading.rows)}"

    def count(self) -> int:
        """The number of blocks."""
        return (len(self.layout.shown) + BLOCK - 1) // BLOCK

    def blocks(self) -> Iterator[str]:
        """The rows of the table, one for each block."""
        for block in range(self.count()):
            yield self.block(block)

    def block(self, block: int) -> str:
        """A row of the table: the picture of a block."""
        shown = self.layout.shown[block * BLOCK:(block + 1) * BLOCK]
        crossed = [self.boxes.covered(it.first) for it in shown]
        wide, high = self.layout.width, len(shown) * ROW
        shapes = self.tracks.block(block, crossed) + self.boxes.block(block)
        cover = f'<rect class="cover" y="{high}" width="{wide}" height="{high}"/>'
        size = f'style="width:{wide}px;height:{high}px;contain-intrinsic-size:{wide}px {high}px"'
        picture = f'<svg viewBox="0 0 {wide} {high}">{rulers(self.layout, high)}{"".join(shapes)}{cover}</svg>'
        return f'<tr><td><div class="block" {size}>{picture}</div></td></tr>\n'

    def head(self) -> str:
        """The head of the table, which stays above and is printed on each sheet."""
        wide = self.layout.width
        hit = f'<defs><rect id="h" width="{wide}" height="{ROW}"/></defs>'
        shapes = "".join(head_shapes(self.reading, self.layout))
        size = f'width="{wide}" height="{HEAD}" viewBox="0 0 {wide} {HEAD}"'
        return f"<thead><tr><th><svg {size}>{hit}{shapes}</svg></th></tr></thead>\n"

    def before(self) -> str:
        """What stands above the table: the title, the key, what isn't drawn, and what disagrees."""
        name = html.escape(self.name)
        parts = [f"<h1>{name}</h1>", f"<p>{self.range}. {html.escape(' '.join(self.layout.skipped))}</p>"]
        parts += [f'<p class="found">{html.escape(it)}</p>' for it in self.reading.disagreements()]
        parts.append(f'<div class="key">{key()}</div>')
        return f"<header>{''.join(parts)}</header>\n"

    def left(self) -> str:
        """The objects that are left, as they were printed."""
        lines = self.reading.history.lines[len(self.reading.rows):]
        return f'<footer><pre id="left">{html.escape(chr(10).join(lines), quote=False)}\n</pre></footer>\n'

    def overview(self) -> str:
        """Who acts when, at the right, where there are more than 60 rows."""
        shown, lanes = self.layout.shown, self.layout.threads
        if len(shown) <= 60:
            return ""
        bins = 500
        seen: dict[int, set[int]] = {}
        for at, it in enumerate(shown):
            if it.first.entry.thread is not None:
                seen.setdefault(it.first.entry.thread, set()).add(at * bins // len(shown))
        each = 64 / max(len(lanes), 1)
        paths = []
        for place, thread in enumerate(lanes):
            left, wide = 3 + place * each, max(each - 1, 0.6)
            d = "".join(f"M{left:.1f} {it}h{wide:.1f}" for it in sorted(seen.get(thread.number, ())))
            paths.append(f'<path class="c2" d="{d}"/>' if d else "")
        return (f'<svg id="over" viewBox="0 0 70 {bins}" preserveAspectRatio="none">'
                f'<title>Who acts when</title>{"".join(paths)}</svg>\n')

    def pieces(self) -> Iterator[str]:
        """The page, piece by piece."""
        sheet = style.sheet(width_on_paper(self.layout))
        yield (f'<!DOCTYPE html>\n<html lang="en"><head><meta charset="utf-8"><title>{html.escape(self.name)}</title>\n'
               f'<meta name="viewport" content="width=device-width"><style>{sheet}</style></head>'
               f'<body{" class=over" if self.overview() else ""}>\n')
        yield self.before()
        yield f"<table>{self.head()}<tbody>\n"
        yield from self.blocks()
        yield "</tbody></table>\n"
        if self.whole:
            yield self.left()
        yield self.overview()
        yield f'<div id="panel">{ASKED}</div>\n<script>{style.script(ROW, BLOCK)}</script></body></html>\n'


def key() -> str:
    """The key: each state as a lane shows it, the colours of boxes, and the stripes."""
    widths = {"waits": 22, "unknown": 22, "suspended": 18, "idle": 6}
    lines = [[(sort, widths.get(sort, 34), words) for sort, words in KEY],
             [(sort, 34, words) for sort, words in BOXES] + [(sort, 5, words) for sort, words in STRIPES]]
    return "".join(f'<div>{"".join(sample(*it) for it in line)}</div>' for line in lines)


def sample(sort: str, wide: int, words: str) -> str:
    """One sample of the key."""
    return (f'<span><svg width="{wide + 2}" height="14" style="display:inline"><path class="{sort}" '
            f'd="M0 1h{wide}v12h-{wide}z"/></svg> {words}</span>')


def small_picture(reading: Reading, first: int, last: int) -> str:
    """A picture of some rows that stands for itself, in SVG."""
    layout = plan(reading, first, last, small=True)
    boxes, tracks = Boxes(reading, layout, small=True), Tracks(reading, layout)
    found = [f'<g>{"".join(head_shapes(reading, layout))}</g>']
    for block in range((len(layout.shown) + BLOCK - 1) // BLOCK):
        shown = layout.shown[block * BLOCK:(block + 1) * BLOCK]
        shapes = tracks.block(block, [boxes.covered(it.first) for it in shown]) + boxes.block(block)
        found.append(f'<g transform="translate(0 {HEAD + block * BLOCK * ROW})">{"".join(shapes)}</g>')
    wide, high = layout.width, HEAD + len(layout.shown) * ROW + 4
    sheet = escape(style.sheet("100%", small=True))
    return (f'<svg xmlns="http://www.w3.org/2000/svg" width="{wide}" height="{high}" viewBox="0 0 {wide} {high}">\n'
            f'<style>{sheet}</style>\n<rect width="{wide}" height="{high}" style="fill:var(--back)"/>\n'
            + "\n".join(found) + "\n</svg>\n")
