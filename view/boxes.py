"""The entries of a block: box, arrows, texts and the title of each row."""
from __future__ import annotations

from layout import BLOCK, ROW, Layout, Shown
from record import Arrow, Reading, Row
from svg import clip, escape
from tracks import EDGE, STRIPE
from words import Wording

MIDDLE = ROW // 2


class Boxes:
    """Draws rows. Each is a group that is moved down, so that all rows have the same coordinates."""

    def __init__(self, reading: Reading, layout: Layout, small: bool = False) -> None:
        self.reading, self.layout, self.small = reading, layout, small
        self.wording = Wording(reading)
        self.inner = layout.wide - STRIPE - EDGE

    def block(self, block: int) -> list[str]:
        """The rows of a block."""
        shown = self.layout.shown[block * BLOCK:(block + 1) * BLOCK]
        return [self.row(it, at) for at, it in enumerate(shown)]

    def row(self, shown: Shown, at: int) -> str:
        """One row of a block."""
        row = shown.first
        parts = [f'<title>{escape(self.title(shown))}</title><use href="#h"/>'] if not self.small else []
        parts.append(f'<text class="e" x="4" y="15">{row.entry.place}</text>')
        if row.entry.thread is None and row.entry.actor in ("tick", "idle"):
            parts.append(self.level(shown))
        else:
            parts += self.acted(row)
        parts.append(self.texts(shown))
        if row.wrong:
            parts.append(f'<path class="wrong" d="M0 20h{self.layout.width}"/>')
        keys = " ".join(sorted(row.about))
        name = "" if self.small else f' id="e{row.entry.place}" data-k="{keys}"'
        return f'<g class="r"{name} transform="translate(0 {at * ROW})">{"".join(parts)}</g>'

    def title(self, shown: Shown) -> str:
        """The printed lines, and behind an empty line the sentence and the line of the script."""
        rows = self.reading.rows[shown.first.entry.place - 1:shown.last.entry.place]
        printed = "\n".join(it.entry.text for it in rows)
        sentence = self.wording.sentence(shown.first)
        if shown.folded() > 1:
            sentence = f"Nobody is ready, so nobody acts, {shown.folded()} times."
        if shown.first.wrong:
            sentence += " Disagreement: " + "; ".join(shown.first.wrong) + "."
        return f"{printed}\n\n{sentence}\n{self.wording.source(shown.first)}".rstrip("\n")

    def level(self, shown: Shown) -> str:
        """A tick or an idle entry: a line over all lanes."""
        layout = self.layout
        begin = layout.calls or min(layout.lanes.values(), default=40)
        end = max(layout.lanes.values(), default=begin) + layout.wide
        actor = shown.first.entry.actor
        text = f"{shown.folded()} × idle" if shown.folded() > 1 else actor
        sort = "tick" if actor == "tick" else "rest"
        return (f'<path class="{sort}" d="M{begin} {MIDDLE}H{end}"/>'
                f'<text class="l" x="{begin + 2}" y="8">{text}</text>')

    def box_at(self, row: Row) -> tuple[int, int] | None:
        """Where the box of an entry begins, and how wide it is."""
        if row.entry.thread is None:
            return (self.layout.calls, 84) if self.layout.calls else None
        lane = self.layout.lanes.get(row.entry.thread)
        return None if lane is None else (lane + STRIPE, self.inner)

    def acted(self, row: Row) -> list[str]:
        """The box and the arrows of an entry."""
        place = self.box_at(row)
        if place is None:
            return []
        left, wide = place
        far = sorted(merged(row.arrows), key=lambda it: -abs(self.layout.lanes.get(it.to, left) - left))
        found = [self.arrow(left, wide, it) for it in far]
        sort = "bad" if row.refused else row.box
        step = row.entry.actor if row.entry.actor.startswith("irq") else row.entry.step
        text = escape(clip(step, int(wide / 5.9)))
        found.append(f'<path class="b {sort}" d="M{left} 3h{wide}v16h-{wide}z"/>'
                     f'<text class="b" x="{left + wide // 2}" y="15">{text}</text>')
        return found

    def ends(self, left: int, wide: int, arrow: Arrow) -> tuple[int, int] | None:
        """Where an arrow begins and ends."""
        lane = self.layout.lanes.get(arrow.to)
        if lane is None or lane + STRIPE == left:
            return None
        target = lane + STRIPE
        return (left + wide, target) if target > left else (left, target + self.inner)

    def arrow(self, left: int, wide: int, arrow: Arrow) -> str:
        """An arrow, with its label behind its head."""
        ends = self.ends(left, wide, arrow)
        if not ends:
            return ""
        begin, end = ends
        way = 1 if end > begin else -1
        line = (f'<path class="a {arrow.kind}" d="M{begin} {MIDDLE}H{end}"/>'
                f'<path class="h {arrow.kind}" d="M{end + 6 * way} {MIDDLE}l{-7 * way}-4v8z"/>')
        if arrow.kind == "message":
            return line + number_label(end + 8 * way, way, arrow.label)
        anchor = "" if way == 1 else ' text-anchor="end"'
        text = escape(clip(arrow.label, max(int((self.inner - 10) / 5.2), 9)))
        return line + f'<text class="t {arrow.kind}" x="{end + 8 * way}" y="15"{anchor}>{text}</text>'

    def covered(self, row: Row) -> list[tuple[int, int]]:
        """What the box and the arrows of a row cover, with the lanes that labels stand in."""
        if row.entry.actor in ("tick", "idle"):
            return [(0, self.layout.width)]
        place = self.box_at(row)
        if not place:
            return []
        found = [(place[0], place[0] + place[1])]
        for arrow in row.arrows:
            ends = self.ends(place[0], place[1], arrow)
            if ends:
                low, high = min(ends), max(ends)
                found.append((low - self.inner, high) if ends[1] < ends[0] else (low, high + self.inner))
        return found

    def texts(self, shown: Shown) -> str:
        """The printed line and the instruction, or what disagrees."""
        row, layout = shown.first, self.layout
        printed = row.entry.text + (f" .. {shown.last.entry.place}" if shown.folded() > 1 else "")
        found = f'<text class="p" x="{layout.printed}" y="15">{escape(printed)}</text>'
        if row.wrong:
            return found + f'<text class="p wrong" x="{layout.source}" y="15">{escape("; ".join(row.wrong))}</text>'
        if row.line and not self.small:
            text = escape(clip(f"{row.line}: {self.reading.script.line(row.line)}", 60))
            found += f'<text class="i" x="{layout.source}" y="15">{text}</text>'
        return found


def merged(arrows: list[Arrow]) -> list[Arrow]:
    """Arrows with the labels of those that lead to one lane together."""
    found: dict[int, Arrow] = {}
    for it in arrows:
        had = found.get(it.to)
        if had is None or it.kind == "message":
            found[it.to] = it
        elif had.label != it.label:
            found[it.to] = Arrow(had.kind, it.to, f"{had.label}, {it.label}")
    return list(found.values())


def number_label(x: int, way: int, text: str) -> str:
    """The number of a message in a circle that is wide enough for its digits."""
    wide = 8 + 6 * len(text)
    left = x if way == 1 else x - wide
    return (f'<rect class="m" x="{left}" y="4" width="{wide}" height="14" rx="7"/>'
            f'<text class="c" x="{left + wide // 2}" y="15">{text}</text>')
