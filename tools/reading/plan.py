"""The plan of the crates: sections as rooms on storeys, crates as boxes in rows, a line from each crate to those over it."""

from html import escape

# from the ground up; sections side by side stand on the same ones
STOREYS = [
    ["words"],
    ["lists"],
    ["records"],
    ["steps"],
    ["readings"],
    ["comparison", "texts and jobs"],
    ["calls"],
    ["claims"],
]
COLOURS = {
    "words": "#5b6770",
    "lists": "#8a6d3b",
    "records": "#a0522d",
    "steps": "#2e7d32",
    "readings": "#6a4fa3",
    "comparison": "#1565c0",
    "texts and jobs": "#00838f",
    "calls": "#b8860b",
    "claims": "#b71c1c",
}
LETTER, HEIGHT, GAP, PITCH, PAD, HEAD, MARGIN = 7.3, 24, 16, 50, 16, 20, 20


def reduced(needs):
    """The dependencies that do not follow from others."""
    below = {}

    def closure(name):
        if name not in below:
            below[name] = set(needs[name]).union(*(closure(other) for other in needs[name]))
        return below[name]

    for name in needs:
        closure(name)
    return {name: {one for one in found if not any(one in below[other] for other in found)} for name, found in needs.items()}


def rows_of(names, lines):
    """The crates of a section in rows: each above those of the section that it depends on."""
    level = {}

    def of(name):
        if name not in level:
            level[name] = max((of(other) + 1 for other in lines[name] if other in names), default=0)
        return level[name]

    rows = [[] for _ in range(max(of(name) for name in names) + 1)]
    for name in names:
        rows[level[name]].append(name)
    return rows


def width_of(name):
    return LETTER * len(name) + 18


def row_width(row):
    return sum(width_of(name) for name in row) + GAP * (len(row) - 1)


def rising(numbers):
    """The numbers nearest to these that never fall: where they would, their mean."""
    runs = []
    for number in numbers:
        runs.append([number, 1])
        while len(runs) > 1 and runs[-2][0] > runs[-1][0]:
            (a, k), (b, m) = runs[-2], runs[-1]
            runs[-2:] = [[(a * k + b * m) / (k + m), k + m]]
    return [value for value, count in runs for _ in range(count)]


class Plan:
    def __init__(self, sections, needs):
        self.lines = reduced(needs)
        self.users = {name: {other for other in self.lines if name in self.lines[other]} for name in self.lines}
        self.section = {name: title for title, names in sections for name in names}
        self.rooms = {title: rows_of(names, self.lines) for title, names in sections}
        self.boxes, self.x, self.y = {}, {}, {}
        self.place_rooms()
        for turn in range(24):
            self.sort_rows()
            self.place_boxes()

    def inner(self, title):
        return max(max(row_width(row) for row in self.rooms[title]), LETTER * len(title)) + 2 * PAD

    def place_rooms(self):
        """Rooms side by side fill the width of the widest storey; storeys stand on each other."""
        storeys = [[title for title in storey if title in self.rooms] for storey in STOREYS]
        lost = set(self.rooms) - {title for storey in storeys for title in storey}
        if lost:
            raise SystemExit(f"no storey for the section {', '.join(sorted(lost))}")
        storeys = [storey for storey in storeys if storey]
        self.width = max(sum(self.inner(title) for title in storey) + GAP * (len(storey) - 1) for storey in storeys)
        top = sum(max(self.room_height(title) for title in storey) + GAP for storey in storeys) - GAP
        self.height = top
        for storey in storeys:
            tall = max(self.room_height(title) for title in storey)
            spare = self.width - sum(self.inner(title) for title in storey) - GAP * (len(storey) - 1)
            left = 0.0
            for title in storey:
                wide = self.inner(title) + spare / len(storey)
                self.boxes[title] = (left, top - tall, wide, tall)
                for k, row in enumerate(self.rooms[title]):
                    at = left + (wide - row_width(row)) / 2
                    for name in row:
                        self.x[name] = at + width_of(name) / 2
                        self.y[name] = top - PAD - HEIGHT / 2 - k * PITCH
                        at += width_of(name) + GAP
                left += wide + GAP
            top -= tall + GAP

    def room_height(self, title):
        return HEAD + 2 * PAD + HEIGHT + (len(self.rooms[title]) - 1) * PITCH

    def wish(self, name):
        """Where the crates that a box is joined to would have it."""
        joined = [self.x[other] for other in sorted(self.lines[name] | self.users[name])]
        return sum(joined) / len(joined) if joined else self.x[name]

    def sort_rows(self):
        for rows in self.rooms.values():
            for row in rows:
                row.sort(key=lambda name: (self.wish(name), name))

    def place_boxes(self):
        """Each box of a row as near to its wish as the order of the row and the room allow."""
        for title, rows in self.rooms.items():
            left, _, wide, _ = self.boxes[title]
            for row in rows:
                offsets, at = [], 0.0
                for name in row:
                    offsets.append(at + width_of(name) / 2)
                    at += width_of(name) + GAP
                low, high = left + PAD, left + wide - PAD - row_width(row)
                starts = rising([self.wish(name) - offset for name, offset in zip(row, offsets)])
                for name, offset, start in zip(row, offsets, starts):
                    self.x[name] = min(max(start, low), high) + offset

    def svg(self):
        out = []
        wide, tall = self.width + 2 * MARGIN, self.height + 2 * MARGIN
        out.append(f'<svg xmlns="http://www.w3.org/2000/svg" width="{wide:.0f}" height="{tall:.0f}" viewBox="0 0 {wide:.0f} {tall:.0f}">')
        out.append('<rect width="100%" height="100%" fill="#ffffff"/>')
        out.append(f'<g transform="translate({MARGIN},{MARGIN})" font-family="DejaVu Sans Mono, Menlo, Consolas, monospace" font-size="12">')
        for title, (x, y, w, h) in self.boxes.items():
            colour = COLOURS.get(title, "#444444")
            out.append(f'<rect x="{x:.1f}" y="{y:.1f}" width="{w:.1f}" height="{h:.1f}" rx="6" fill="{colour}" fill-opacity="0.07" stroke="{colour}" stroke-opacity="0.35"/>')
        for name, found in self.lines.items():
            for other in sorted(found):
                x1, y1, x2, y2 = self.x[other], self.y[other] - HEIGHT / 2, self.x[name], self.y[name] + HEIGHT / 2
                bend = max(18.0, min(abs(y1 - y2) * 0.45, 120.0))
                colour = COLOURS.get(self.section[other], "#444444")
                out.append(f'<path d="M{x1:.1f},{y1:.1f} C{x1:.1f},{y1 - bend:.1f} {x2:.1f},{y2 + bend:.1f} {x2:.1f},{y2:.1f}" fill="none" stroke="{colour}" stroke-width="1.4" stroke-opacity="0.6"/>')
        for title, (x, y, _, _) in self.boxes.items():
            colour = COLOURS.get(title, "#444444")
            out.append(f'<text x="{x + 12:.1f}" y="{y + 19:.1f}" font-size="13" font-weight="bold" fill="{colour}" stroke="#ffffff" stroke-width="3" paint-order="stroke">{escape(title)}</text>')
        for name in self.lines:
            colour, w = COLOURS.get(self.section[name], "#444444"), width_of(name)
            x, y = self.x[name] - w / 2, self.y[name] - HEIGHT / 2
            out.append(f'<rect x="{x:.1f}" y="{y:.1f}" width="{w:.1f}" height="{HEIGHT}" rx="4" fill="#ffffff" stroke="{colour}" stroke-width="1.2"/>')
            out.append(f'<text x="{self.x[name]:.1f}" y="{self.y[name] + 4:.1f}" text-anchor="middle" fill="#222222">{escape(name)}</text>')
        out.append("</g>")
        out.append("</svg>")
        return "\n".join(out) + "\n"
