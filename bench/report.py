#!/usr/bin/env python3
"""Makes the page and the plot from the times that the bench program prints.

    report.py page TIMES    the tables, in Markdown
    report.py plot TIMES    the cost as the lists grow, as SVG
"""
import math
import sys

SIDES = ["single", "run", "rust", "rust_tested"]

INTRO = """# Speed beside the Rust

Made by `bench/run --write` from [speed.csv](speed.csv). {facts}

Nanoseconds for a call, the least of many batches that take turns; both sides in one process, on the same calls and the same lists. The
Rust is the Theseus sources as `oracle/` builds them, but without overflow checks.

- **a**: single calls of the static library, each of which tests the list rules (3 and 11)
- **b**: the same calls through `likhmout_run`, which tests them once
- **c**: the Rust's calls
- **d**: a plain Rust pass that tests the same rules (`bench/src/plain.rs`), and the Rust's call
"""

TABLES = {
    "requests": """## Requests and returns

A request and the return of what it granted; the time is half of the pair's. Each of the four lists has so many entries. In early form a
list has 32 slots.
""",
    "boot": """## Boots

Size: how many areas. Before each boot of c and d the Rust's lists are emptied, and that isn't timed. A run can boot a record only once, so
b is what the boot adds to a run: a run of it less a run of no calls on the same record, which tests once and copies the record in and out.
""",
    "sort": """## Sort

From early to sorted form. Ours writes all 4,096 words. As for boots, b is what the sort adds to a run.
""",
    "held": """## Held list

The Rust has none: c is a plain Rust walk over the same words.
""",
    "new_regions": """## Growth

A request by address for frames that no list knows: they become a reserved region. A region stays, so 16 growths one after another are timed,
and before them both sides get back the lists that they began with, which isn't timed. Size: the entries of each list before the first of
the 16. The time is that of the request alone; the frames are kept. As for boots, b is what the growths add to a run. In the middle and below
every region, the pairs above move up. The missing tail is one frame above the highest reserved chunk, which is granted with it.
""",
    "rules": """## The test of the rules by itself

d is the plain pass alone. In early form the workspace isn't read.
""",
}

AIMS = """## Aims

Through `run` a call takes no longer than the Rust's (b/c at most 1), and a checked call takes at most 1.25 times the plain pass and the
Rust's call (a/d). Of requests and returns, boots, the sort and the held list; the Rust has no held list, and the walk stands for it. Growth
has an aim of its own, in its section.
"""

LEFT_OVER = """Why these are missed; what has been mended is in [DECISIONS.md](DECISIONS.md), "Speed":

- **A whole chunk leaves the middle or the bottom of a long table.** A table is an array in the lent words, so the pairs above move, up
  to 8 KB each way. The Rust has a tree, whose nodes need a heap.
- **Early form.** A call goes over 32 slots, used or not, where the Rust's ends at the first that helps: a return asks both free lists for its frames
  (19), which the Rust doesn't. A single call on short lists sees each of the 128 slots four times: tested, packed, put in order, written back;
  the plain pass sees each once. A held list puts the slots in order first. Early form doesn't grow, and is for the calls between boot and sort.
- **A boot of two areas.** It makes a record whatever the areas are, and hands on lists of 32 ranges, 6 KB of copies. With 32 areas and more
  a boot takes as long as the Rust's or less.
- **A sort of few entries.** It clears all four tables, 32 KB.
- **The test on full tables** takes 1.17 of the plain pass here. The same archive on the same lists in a C program takes 6.7 µs, 0.93 of it, so that this
  hangs on where the linker puts the loops. Where the workspace lies makes no difference.
- **A held list of few runs in sorted form.** A call of a run reads three words and writes five, and the plain walk does neither.
"""

GROWTH = """## As the lists grow

![time of a call against entries in each list](speed.svg)
"""

HEAD = """| call | form | size | a | b | c | d | b/c | a/d |
|---|---|---|---|---|---|---|---|---|"""


def read(path):
    facts, rows = [], {}
    for line in open(path, encoding="utf-8"):
        if line.startswith("# "):
            facts.append(line[2:].strip())
            continue
        table, case, form, size, side, ns = line.strip().split(";")
        rows.setdefault((table, case, form, int(size)), {})[side] = float(ns)
    for times in rows.values():
        if "empty_run" in times:
            times["whole_run"] = times["run"]
            times["run"] -= times.pop("empty_run")
    return facts, rows


def shown(ns):
    return "" if ns is None else f"{ns:,.0f}"


def ratio(times, above, below):
    return f"{times[above] / times[below]:.2f}" if above in times and below in times else ""


AIMED_AT = ("requests", "boot", "sort", "held")


def aim(rows, above, below, most, tables=AIMED_AT):
    """How many rows meet the aim, and those that don't."""
    found = [(case, form, size, times[above] / times[below]) for (table, case, form, size), times in rows.items()
             if table in tables and above in times and below in times]
    missed = [f"{case}, {form} form, {size}: {by:.2f}" for case, form, size, by in found if round(by, 2) > most]
    return len(found) - len(missed), len(found), missed


def aims(rows):
    print(AIMS)
    for name, above, below, most in [("b/c at most 1", "run", "rust", 1), ("a/d at most 1.25", "single", "rust_tested", 1.25)]:
        met, total, missed = aim(rows, above, below, most)
        print(f"- **{name}**: met in {met} of {total} rows." + (" Missed:" if missed else ""))
        for row in missed:
            print(f"  - {row}")
    whole(rows)
    print()
    print(LEFT_OVER)


def growth_aim(rows):
    met, total, missed = aim(rows, "run", "rust", 1.5, ("new_regions",))
    print(f"Aim: b/c at most 1.5. Met in {met} of {total} rows." + (" Missed:" if missed else "") + "\n")
    for row in missed:
        print(f"- {row}")
    if missed:
        print()


def whole(rows):
    """The first aim once more, with the whole run of one boot or sort."""
    once = {key: {**times, "run": times.get("whole_run", times.get("run"))} for key, times in rows.items() if "run" in times}
    met, total, missed = aim(once, "run", "rust", 1)
    print(f"- **b/c at most 1, with the whole run** of a boot or a sort, its test and its copies of the record not taken off: met in {met} of "
          f"{total} rows.")
    print("  Boots and sorts that miss it:")
    for row in missed:
        if any(row.startswith(case) for (table, case, _, _) in rows if table in ("boot", "sort")):
            print(f"  - {row}")


def lines(rows, table):
    """The rows of one table."""
    print(HEAD)
    for (of, case, form, size), times in rows.items():
        if of == table:
            cells = [shown(times.get(side)) for side in SIDES]
            ends = [ratio(times, "run", "rust"), ratio(times, "single", "rust_tested")]
            print("| " + " | ".join([case, form, f"{size:,}", *cells, *ends]) + " |")


def page(facts, rows):
    facts = "; ".join(facts)
    print(INTRO.format(facts=facts[0].upper() + facts[1:] + "."))
    for table, text in TABLES.items():
        print(text)
        lines(rows, table)
        print()
        if table == "new_regions":
            growth_aim(rows)
    aims(rows)
    print(GROWTH)
    lines(rows, "growth")


COLOURS = {"single": "#7a3b9a", "run": "#1f6fb2", "rust": "#c4541a", "rust_tested": "#8a6d1a"}
NAMES = {"single": "a: single calls", "run": "b: through run", "rust": "c: the Rust", "rust_tested": "d: plain test and the Rust"}
WIDTH, HEIGHT, LEFT, TOP, GAP = 380, 260, 60, 70, 70


class Panel:
    """One case: entries to the right, nanoseconds upwards, both by powers."""

    def __init__(self, place, case, rows):
        self.left, self.top = LEFT + place % 2 * (WIDTH + GAP), TOP + place // 2 * (HEIGHT + GAP + 20)
        self.case = case
        self.points = {size: times for (table, of, _, size), times in rows.items() if table == "growth" and of == case}

    def x(self, size):
        return self.left + WIDTH * math.log2(size) / 9

    def y(self, ns):
        return self.top + HEIGHT * (1 - (math.log10(ns) - 1) / 3)

    def axes(self):
        yield f'<text x="{self.left}" y="{self.top - 14}" font-weight="bold">{self.case}</text>'
        for ns in [10, 100, 1000, 10000]:
            y = self.y(ns)
            yield f'<line x1="{self.left}" y1="{y:.1f}" x2="{self.left + WIDTH}" y2="{y:.1f}" stroke="#ddd"/>'
            yield f'<text x="{self.left - 6}" y="{y + 4:.1f}" text-anchor="end">{ns:,}</text>'
        for size in [1, 4, 16, 64, 256, 511]:
            yield f'<text x="{self.x(size):.1f}" y="{self.top + HEIGHT + 18}" text-anchor="middle">{size}</text>'
        yield f'<text x="{self.left + WIDTH / 2}" y="{self.top + HEIGHT + 36}" text-anchor="middle">entries in each list</text>'

    def lines(self):
        for side in SIDES:
            path = " ".join(f"{self.x(size):.1f},{self.y(times[side]):.1f}" for size, times in sorted(self.points.items()))
            yield f'<polyline points="{path}" fill="none" stroke="{COLOURS[side]}" stroke-width="2"/>'


def plot(facts, rows):
    cases = list(dict.fromkeys(case for (table, case, _, _) in rows if table == "growth"))
    panels = [Panel(place, case, rows) for place, case in enumerate(cases)]
    width, bottom = LEFT + 2 * (WIDTH + GAP), panels[-1].top + HEIGHT
    height = bottom + 90
    print(f'<svg xmlns="http://www.w3.org/2000/svg" width="{width}" height="{height}" font-family="sans-serif" font-size="12">')
    print(f'<rect width="{width}" height="{height}" fill="white"/>')
    print(f'<text x="{LEFT}" y="20">nanoseconds a call, with its return:</text>')
    for place, side in enumerate(SIDES):
        print(f'<text x="{LEFT + 225 + 130 * place}" y="20" fill="{COLOURS[side]}">{NAMES[side]}</text>')
    for panel in panels:
        print("\n".join([*panel.axes(), *panel.lines()]))
    print(f'<text x="{LEFT}" y="{bottom + 66}" fill="#666">{"; ".join(facts[:2])}</text>')
    print("</svg>")


if __name__ == "__main__":
    if len(sys.argv) != 3 or sys.argv[1] not in ("page", "plot"):
        sys.exit(__doc__)
    {"page": page, "plot": plot}[sys.argv[1]](*read(sys.argv[2]))
