"""What lasts between rows, drawn for one block: lanes, stripes, lifelines of objects, and messages."""
from __future__ import annotations

from bisect import bisect_right

from layout import BLOCK, ROW, Layout
from record import Reading, Span, Stripe
from state import Kind, Message, Thing
from svg import clip, escape

# How much of its lane a state fills.
FILLS = {
    Kind.READY: 1.0, Kind.WANTS: 1.0, Kind.WAITS: 0.62, Kind.UNKNOWN: 0.62, Kind.SUSPENDED: 0.5, Kind.OUT: 0.8,
    Kind.DOOMED: 1.0, Kind.CLEANED: 1.0, Kind.IDLE: 0.16,
}
STRIPE, EDGE = 12, 4


def object_label(thing: Thing) -> str:
    """The name of an object as it fits its column, with its number whole."""
    name = {"-": "sess", "?": "?"}.get(thing.name, thing.name)
    return f"{clip(name, 8 - len(str(thing.number)))} {thing.number}"


def is_free(left: int, right: int, crossed: list[tuple[int, int]]) -> bool:
    """Whether nothing covers a part of a row."""
    return not any(low < right and left < high for low, high in crossed)


def name_of_line(key: str, x: int, y: int, text: str) -> str:
    """The name of a line, by which rows can be filtered."""
    return f'<text class="n l" data-k="{key}" x="{x}" y="{y}">{escape(text)}</text>'


def middle(row: int) -> int:
    """The middle of a row."""
    return row * ROW + ROW // 2


class Tracks:
    """Draws what lasts, block by block. Coordinates are those of the block."""

    def __init__(self, reading: Reading, layout: Layout) -> None:
        self.reading, self.layout = reading, layout
        self.firsts = {number: [it.first for it in spans] for number, spans in reading.spans.items()}
        self.by_block: dict[int, list] = {}
        self.marks: dict[Thing, list[tuple[int, int]]] = {}
        for thing in list(layout.objects) + list(layout.boots):
            self.marks[thing] = self.marks_of(thing)
            self.spread(thing, thing.born, thing.swept)
        for message in layout.messages:
            self.spread(message, message.accepted, message.finished)
        self.stripes: dict[int, list[tuple[int, Stripe, int]]] = {}
        for number in layout.lanes:
            self.spread_stripes(number)

    def spread(self, what: Thing | Message, first: int, last: int | None) -> None:
        """Notes in which blocks a life is seen."""
        begin = max(self.layout.row_of(first), 0) // BLOCK
        end = len(self.layout.shown) if last is None else self.layout.row_of(last)
        for block in range(begin, min(end, len(self.layout.shown) - 1) // BLOCK + 1):
            self.by_block.setdefault(block, []).append(what)

    def spread_stripes(self, number: int) -> None:
        """Notes in which blocks each stripe is seen, and which place it has beside others of its lane."""
        last_of: list[int] = []
        for stripe in self.reading.stripes[number]:
            place = next((it for it, last in enumerate(last_of) if last < stripe.first), len(last_of))
            last_of[place:place + 1] = [stripe.last or len(self.reading.rows) + 1]
            first = max(self.layout.row_of(stripe.first), 0)
            last = len(self.layout.shown) - 1 if stripe.last is None else self.layout.row_of(stripe.last)
            for block in range(first // BLOCK, min(last, len(self.layout.shown) - 1) // BLOCK + 1):
                self.stripes.setdefault(block, []).append((number, stripe, place))

    def block(self, block: int, crossed: list[list[tuple[int, int]]]) -> list[str]:
        """The shapes of a block. `crossed` has for each of its rows what arrows and boxes cover."""
        begin = block * BLOCK
        end = min(begin + BLOCK, len(self.layout.shown))
        found = []
        for number in self.layout.lanes:
            found += self.lane(number, begin, end, crossed)
        for number, stripe, place in self.stripes.get(block, []):
            found += self.stripe(number, stripe, place, begin, end, crossed)
        for what in self.by_block.get(block, []):
            found += self.life(what, begin, end) if isinstance(what, Thing) else self.message(what, begin, end)
        return found

    def lane(self, number: int, begin: int, end: int, crossed: list[list[tuple[int, int]]]) -> list[str]:
        """The states of a lane in the rows of a block."""
        spans, found = self.reading.spans[number], []
        place = self.layout.shown[begin].first.entry.place
        at = bisect_right(self.firsts[number], place) - 1
        while at < len(spans):
            first = max(self.layout.row_of(spans[at].first), begin)
            last = end if at + 1 == len(spans) else self.row_or_end(spans[at + 1].first, begin, end)
            if first >= end:
                break
            if last > first:
                found += self.state(number, spans[at], first - begin, last - begin, crossed)
            at += 1
        return found

    def row_or_end(self, place: int, begin: int, end: int) -> int:
        """The row of an entry, as far as a block shows it."""
        return max(begin, min(self.layout.row_of(place), end))

    def state(self, number: int, span: Span, first: int, last: int, crossed: list[list[tuple[int, int]]]) -> list[str]:
        """One state of a lane, from a row of the block to another."""
        kind, wide = span.standing.kind, self.layout.wide - STRIPE - EDGE
        left = self.layout.lanes[number] + STRIPE
        if kind is Kind.BURIED:
            return []
        fill = round(wide * FILLS[kind])
        x = left + (wide - fill) // 2
        found = [f'<path class="{kind.value}" d="M{x} {first * ROW}h{fill}v{(last - first) * ROW}h-{fill}z"/>']
        if kind is Kind.CLEANED and self.is_buried_behind(number, span):
            found.append(f'<path class="bar" d="M{left} {last * ROW}h{wide}"/>')
        if span.standing.words:
            found += self.words(span.standing.words, left, wide, first, last, crossed)
        return found

    def is_buried_behind(self, number: int, span: Span) -> bool:
        """Whether a state of a cleaned thread ends with its burial."""
        return self.reading.spans[number][-1].standing.kind is Kind.BURIED and span is self.reading.spans[number][-2]

    def words(self, words: str, left: int, wide: int, first: int, last: int, crossed: list) -> list[str]:
        """For what a lane waits, in the first of its rows that nothing covers."""
        for row in range(first, last):
            if is_free(left, left + wide, crossed[row]):
                text = escape(clip(words, int(wide / 5.2)))
                return [f'<text class="s" x="{left + wide // 2}" y="{middle(row) + 3}">{text}</text>']
        return []

    def stripe(self, number: int, stripe: Stripe, place: int, begin: int, end: int, crossed: list) -> list[str]:
        """A stripe at the left of a lane, with its name in the first of its rows that nothing covers."""
        first = self.row_or_end(stripe.first, begin, end) - begin
        last = (end if stripe.last is None else min(self.row_or_end(stripe.last, begin, end) + 1, end)) - begin
        if last <= first:
            return []
        thick = {"fast": 5, "mutex": 4, "critical": 2, "noted": 3}[stripe.kind]
        left = self.layout.lanes[number] + STRIPE
        x = left - 1 - thick - 4 * (place % 2)
        title = {"critical": "in a critical section", "noted": "an exit is noted"}.get(stripe.kind, stripe.label)
        found = [f'<path class="k {stripe.kind}" d="M{x} {first * ROW}h{thick}v{(last - first) * ROW}h-{thick}z">'
                 f'<title>{escape(title)}</title></path>']
        free = [row for row in range(first, last) if is_free(left, left + 40, crossed[row])]
        text = escape(clip(stripe.label.split(" ")[0], 7))
        if text and free:
            found.append(f'<text class="l" x="{left + 1}" y="{free[0] * ROW + 19}">{text}</text>')
        elif text:
            at = f"{x - 2} {first * ROW + min(ROW * (last - first), 6 * len(text) + 4)}"
            found.append(f'<text class="l" transform="translate({at}) rotate(-90)">{text}</text>')
        return found

    def life(self, thing: Thing, begin: int, end: int) -> list[str]:
        """The lifeline of an object: wide by its count, dotted from its death to its sweep."""
        x = self.layout.objects.get(thing) or self.layout.boots[thing]
        marks, lines, signs = self.marks[thing], [], []
        at = max(bisect_right(marks, (begin, -1)) - 1, 0)
        if begin == 0 and marks[0][0] < 0 and thing.born > 0:
            signs.append(name_of_line(f"o{thing.number}", x + 8, 9, object_label(thing)))
        died = len(self.layout.shown) if thing.died is None else self.layout.row_of(thing.died)
        while at < len(marks) and marks[at][0] < end:
            row, count = marks[at]
            last = marks[at + 1][0] if at + 1 < len(marks) else self.last_row(thing.swept)
            lines += self.piece(x, row, last, count, row >= died, begin, end)
            if row >= begin:
                signs += self.mark(thing, x, middle(row - begin), count, row == died, at == 0 and thing.born > 0)
            at += 1
        return lines + signs

    def marks_of(self, thing: Thing) -> list[tuple[int, int]]:
        """The count behind each row in which it changes; a row -1 stands for what was before."""
        marks: dict[int, int] = {}
        for place, count in thing.changes:
            marks[self.layout.row_of(place)] = count
        return sorted(marks.items())

    def last_row(self, place: int | None) -> int:
        """The row of an end, or that behind the last."""
        return len(self.layout.shown) if place is None else self.layout.row_of(place)

    def piece(self, x: int, row: int, last: int, count: int, dead: bool, begin: int, end: int) -> list[str]:
        """A piece of a lifeline, as wide as its count."""
        sort = "gone" if dead else "kept" if count == 0 else f"c{min(count, 6)}"
        return self.stretch(x, row, last, sort, begin, end)

    def stretch(self, x: int, row: int, last: int, sort: str, begin: int, end: int) -> list[str]:
        """A line down from the middle of a row to that of another, as far as the block shows it."""
        high = (end - begin) * ROW
        top = max(middle(row - begin) if row >= 0 else 0, 0)
        bottom = min(middle(last - begin) if last < len(self.layout.shown) else high, high)
        return [f'<path class="{sort}" d="M{x} {top}V{bottom}"/>'] if bottom > top and row < end else []

    @staticmethod
    def mark(thing: Thing, x: int, y: int, count: int, died: bool, named: bool) -> list[str]:
        """A new count, or a death, with the name where the object is made."""
        found = []
        if died:
            found.append(f'<path class="x" d="M{x - 5} {y - 5}l10 10m0-10l-10 10"/>')
        else:
            found.append(f'<circle class="o" cx="{x}" cy="{y}" r="7"/>'
                         f'<text class="c" x="{x}" y="{y + 3}">{count}</text>')
        if named:
            found.append(name_of_line(f"o{thing.number}", x + 9, y - 3, object_label(thing)))
        return found

    def message(self, message: Message, begin: int, end: int) -> list[str]:
        """A message: dashed while it is queued, a square where it is taken, thick until it is finished."""
        x, layout = self.layout.messages[message], self.layout
        first = layout.row_of(message.accepted)
        last = self.last_row(message.finished)
        taken = last if message.taken is None else layout.row_of(message.taken)
        found = self.stretch(x, first, taken, "queued", begin, end)
        found += self.stretch(x, taken, last, "taken", begin, end) if message.taken else []
        y = middle(first - begin) if first >= 0 else 9
        if begin <= first < end:
            found.append(f'<circle class="m" cx="{x}" cy="{y}" r="4"/>')
        if begin <= first < end or first < 0 and begin == 0:
            found.append(name_of_line(f"m{message.number}", x + 6, y, f"{message.number} {clip(message.what, 7)}"))
        if message.taken and begin <= taken < end:
            found.append(f'<path class="m" d="M{x - 4} {middle(taken - begin) - 4}h8v8h-8z"/>')
        if message.finished and begin <= last < end:
            y = middle(last - begin)
            found.append(f'<path class="m" d="M{x - 5} {y}h10"/>'
                         f'<text class="l" x="{x + 6}" y="{y + 8}">{message.code}</text>')
        return found
