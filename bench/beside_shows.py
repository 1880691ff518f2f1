"""What bench/beside shows of its runs: the runs themselves, as they are kept in a file, tables, and a picture."""
import math
import os
import statistics
from xml.sax.saxutils import escape

LOADS = {"burst": "200 tasks each 50 ms"} | {load: f"at random moments, {load} of 100" for load in ("30", "60", "90")}
FIELDS = ("tasks", "median", "99th", "99.9th", "longest", "batch", "moved", "left", "others", "stolen")
TWO = "libraries"  # the load of two libraries
TWO_FIELDS = ("OpenMP", "oneTBB", "both", "others", "stolen")
TWO_WAYS = {
    "house": "the house",
    "house-spins": "the house, and OpenMP's threads wait as they usually do: they spin",
    "none": "no arbiter",
    "none-spins": "no arbiter, and OpenMP's threads spin",
    "none-all": "no arbiter, on all processors",
    "none-all-spins": "the same, and OpenMP's threads spin",
    "turns": "oneTBB once OpenMP is through",
}
# the ways that the house is compared with, and the aims: at most this part of their time, at least this part of their batch job's
# tasks
GROUPS = ((("none", "nice", "batch"), 0.4, 0.95), (("idle", "own", "fifo"), 0.4, 0.95), (("halves", "fewer"), 0.7, 1.3))
GROWS = 1.0  # a way can't keep up if at least this percentage of the tasks is left at the end


class NotRuns(Exception):
    """A file that doesn't hold kept runs."""


class Runs:
    """What was measured: for each number of processors, load and way a list of runs. A run is a dictionary with its load's fields."""

    writer = "bench/beside"

    @staticmethod
    def fields(load):
        """The names of the fields of a run at a load."""
        return TWO_FIELDS if load == TWO else FIELDS

    def __init__(self, keep, most):
        self.runs, self.managed, self.calibrated, self.machine, self.keep, self.most = {}, {}, {}, "", keep, most
        if keep and os.path.exists(keep):
            with open(keep, encoding="utf-8", errors="replace") as lines:
                for number, line in enumerate(lines, 1):
                    try:
                        self.add(line.split())
                    except (ValueError, IndexError) as why:
                        raise NotRuns(f"{keep}: line {number} is none that {self.writer} wrote") from why

    def add(self, words):
        """Adds a run: processors, managed cores, way, load and its fields. Or adds what runs ran on: the machine's name, or a number
        of processors with a task's steps, the tasks that they take a second, and the seconds of a run."""
        if words[0] == "machine":
            self.machine = " ".join(words[1:])
        elif words[0] == "calibrated":
            self.calibrated[int(words[1])] = words[2:]
        else:
            processors, managed, (way, load) = int(words[0]), int(words[1]), words[2:4]
            self.managed[processors] = managed
            run = dict(zip(self.fields(load), map(float, words[4:]), strict=True))
            self.runs.setdefault((processors, load, way), []).append(run)

    def note(self, words):
        """Adds what has just been measured, and keeps it."""
        self.add(words)
        if self.keep:
            with open(self.keep, "a", encoding="utf-8") as file:
                print(*words, file=file)

    def of(self, *key):
        """The runs that count, and whether they were undisturbed."""
        runs = self.runs.get(key, [])
        quiet = [run for run in runs if run["others"] + run["stolen"] <= self.most]
        return (quiet, True) if quiet else (runs, False)

    def count(self, *key):
        """How many undisturbed runs there are, and how many in all."""
        runs, quiet = self.of(*key)
        return len(runs) if quiet else 0, len(self.runs.get(key, []))

    def median(self, field, *key):
        """The median of a field over the runs that count, or None."""
        runs, _ = self.of(*key)
        return statistics.median(run[field] for run in runs) if runs else None

    def disturbed(self, processors):
        """How many rows have no undisturbed run on this number of processors, and how many rows there are."""
        keys = [key for key in self.runs if key[0] == processors]
        return sum(not self.of(*key)[1] for key in keys), len(keys)

    def grows(self, *key):
        """Whether tasks come faster than a way takes them."""
        return (self.median("left", *key) or 0) >= GROWS


def halves(cores):
    """The texts of fixed parts, the service's first."""
    return f"fixed parts, {(cores + 1) // 2} and {cores // 2}", f"fixed parts, {cores // 2} and {(cores + 1) // 2}"


def texts(managed, processors):
    """What each way is called, in the order of the tables."""
    words = {
        "house": "the house",
        "none": "no arbiter",
        "halves": halves(managed)[0],
        "fewer": halves(managed)[1],
        "nice": "batch job at `nice` 19",
        "batch": "batch job at `SCHED_BATCH`",
        "idle": "batch job at `SCHED_IDLE`",
        "own": "the same, each thread of the service on a core of its own",
        "fifo": "service at `SCHED_FIFO`",
        "service": "the service alone",
    }
    words |= {f"{way}-all": text for way, text in words.items() if way != "fewer"}
    words["house"] = f"the house, which manages {managed}"
    words["house-all"], words["halves-all"] = f"the house, which manages {processors}", halves(processors)[0]
    return words


# ---- tables


def mark(runs, key):
    """The mark of a way without a run that counts."""
    return "" if runs.of(*key)[1] else " *"


def explained(runs, lines):
    """A table, and below it what its marks mean."""
    if not any(" *" in line.replace("**", "") for line in lines):
        return lines
    return [*lines, "", f"`*`: in each run others took more than {runs.most:g} of 100 of the processors' time, so the figure is theirs too."]


def warning(runs, processors):
    """The warning above the tables, if others took part in what was measured."""
    disturbed, ways = runs.disturbed(processors)
    if not disturbed:
        return []
    return ["", f"**Others used this machine meanwhile**: {disturbed} of {ways} rows have no run in which they took {runs.most:g} of 100 of "
            "the processors' time or less. Don't compare these rows, nor with figures of another machine."]


def milliseconds(microseconds):
    """A time, with three digits that count."""
    value = microseconds / 1000
    return f"{value:,.0f}" if value >= 99.95 else f"{value:.1f}" if value >= 9.995 else f"{value:.2f}"


def part(value, whole):
    """A part of a whole in percent."""
    return f"{100 * value / whole:.0f}" if whole else "-"


def table(runs, processors, load, everywhere):
    """The lines of a table: of the ways on managed cores, or of those on all processors and the house."""
    words, suffix = texts(runs.managed[processors], processors), "-all" if everywhere else ""
    alone, nobody = (runs.median("batch", processors, load, way + suffix) for way in ("job", "none"))
    lines = ["| Way | Median, ms | 99th | 99.9th | Left | Batch job, of alone | of no arbiter | Moved |", "|" + "---|" * 8]
    for way, text in words.items():
        key = (processors, load, way)
        if (way.endswith("-all") != everywhere and way != "house") or key not in runs.runs:
            continue
        times = [milliseconds(runs.median(field, *key)) for field in ("median", "99th", "99.9th")]
        left = f"{runs.median('left', *key):.0f}" if runs.grows(*key) else ""
        batch, moved = runs.median("batch", *key), runs.median("moved", *key)
        job = ["", "", ""] if way.startswith("service") else [part(batch, alone), part(batch, nobody), f"{moved:,.0f}"]
        lines.append("| " + " | ".join([text + mark(runs, key), *times, left, *job]) + " |")
    return explained(runs, lines) if len(lines) > 2 else []


def beside_best(runs, processors, load, ways, most, least):
    """A cell: the house's 99th percentile as a part of the best of some ways, and its batch job's tasks as a part of that way's.
    It is bold if both reach the aim."""
    keys = [(processors, load, way) for way in ways if (processors, load, way) in runs.runs]
    house = (processors, load, "house")
    if not keys or house not in runs.runs:
        return ""
    best = min(keys, key=lambda key: runs.median("99th", *key))
    time, batch = (runs.median(field, *house) / (runs.median(field, *best) or math.inf) for field in ("99th", "batch"))
    star = mark(runs, house) or mark(runs, best)
    bold = "**" if time <= most and batch >= least and not star else ""
    return f"{bold}{time:.2f}, {100 * batch:.0f}{'+' if runs.grows(*best) else ''}{bold} (`{best[2]}`){star}"


def summary(runs, processors, loads):
    """The lines of the table of all comparisons."""
    managed = runs.managed[processors]
    lines = ["| Load | Processors | `none`, `nice`, `batch` | `idle`, `own`, `fifo` | `halves`, `fewer` |", "|" + "---|" * 5]
    for suffix in ("", "-all"):
        for load in (load for load in loads if load != TWO):
            cells = [beside_best(runs, processors, load, [way + suffix for way in ways], *aim) for ways, *aim in GROUPS]
            place = f"the house on {managed}, the others on {processors}" if suffix else f"{managed} of {processors}"
            if any(cells):
                lines.append("| " + " | ".join([LOADS[load], place, *cells]) + " |")
    return explained(runs, lines) if len(lines) > 2 else []


def tell_two(runs, processors):
    """The lines of the table of two libraries."""
    lines = ["| Way | OpenMP is through after | oneTBB | Both |", "|" + "---|" * 4]
    for way, text in TWO_WAYS.items():
        key = (processors, TWO, way)
        if key in runs.runs:
            times = [f"{runs.median(field, *key):.2f} s" for field in TWO_FIELDS[:3]]
            lines.append("| " + " | ".join([text + mark(runs, key), *times]) + " |")
    return explained(runs, lines) if len(lines) > 2 else []


def section(runs, processors, loads):
    """The lines of the tables of a number of processors."""
    managed, (steps, capacity, seconds) = runs.managed[processors], runs.calibrated[processors]
    most = max(len(of) for key, of in runs.runs.items() if key[0] == processors)
    verb = "is" if managed == 1 else "are"
    out = ["", f"### {processors} processors, of which {managed} {verb} managed", "",
           f"A task has {int(steps):,} steps. The managed cores take {int(capacity):,} tasks a second. Each way ran "
           f"{most} times at most at each load, for {float(seconds):g} s each.", *warning(runs, processors), "",
           *summary(runs, processors, loads)]
    for load in loads:
        if load == TWO:
            two = tell_two(runs, processors)
            out += ["", "Two libraries:", "", *two] if two else []
            continue
        for everywhere in (False, True):
            lines = table(runs, processors, load, everywhere)
            place = f"all {processors} processors" if everywhere else f"{managed} of {processors} processors"
            out += ["", f"{LOADS[load]}, on {place}:", "", *lines] if lines else []
    return out


def tell(runs, counts, loads):
    """The lines of all tables."""
    out = [f"Measured on: {runs.machine}."]
    for processors in counts:
        out += section(runs, processors, loads) if processors in runs.managed else []
    return out


# ---- the picture

STYLE = """svg{background:#fff;width:100%;height:auto}
text{font:13px system-ui,sans-serif;fill:#1c1e21}
.head{font-size:18px;font-weight:bold}
.load{font-weight:bold}
.tick{text-anchor:middle}
.grid{stroke:#c3c8ce}
.bar{fill:#aab2bc}
.house{fill:#1155bb}
.median{stroke:#1c1e21;stroke-width:2}
.room{fill:#8b95a1;fill-opacity:.14}
@media (prefers-color-scheme:dark){
svg{background:#15171a}
text{fill:#e6e8ea}
.grid{stroke:#3a3f45}
.bar{fill:#646c76}
.house{fill:#4a8ef0}
.median{stroke:#e6e8ea}
}"""
LEFT, WIDE, BATCH, SHARE = 268, 400, 800, 100  # where bars begin and how wide they may be: of times, of shares
LEAST, MOST = 0.05, 2000.0  # milliseconds at both ends
ROW, DRAWN = 22, ("house", "none", "halves", "nice", "batch", "idle")


def at(time):
    """How far to the right a time lies: decades are equally wide."""
    return LEFT + WIDE * math.log(max(LEAST, min(MOST, time)) / LEAST) / math.log(MOST / LEAST)


def drawn_row(runs, key, text, share, y):
    """A drawn row of a way: its time, and a share, 0 to 1."""
    median, high = (runs.median(field, *key) / 1000 for field in ("median", "99th"))
    kind, growing = "bar house" if key[2].startswith("house") else "bar", ", growing" if runs.grows(*key) else ""
    return [
        f'<text x="28" y="{y + 15}">{escape(text.replace("`", ""))}</text>',
        f'<rect class="{kind}" x="{LEFT}" y="{y + 3}" width="{at(high) - LEFT:.1f}" height="16"/>',
        f'<path class="median" d="M{at(median):.1f} {y + 3}v16"/>',
        f'<text x="{at(high) + 6:.1f}" y="{y + 15}">{milliseconds(1000 * high)} ms{growing}</text>',
        f'<rect class="room" x="{BATCH}" y="{y + 3}" width="{SHARE}" height="16"/>',
        f'<rect class="{kind}" x="{BATCH}" y="{y + 3}" width="{SHARE * min(1, share):.1f}" height="16"/>',
        f'<text x="{BATCH + SHARE + 6}" y="{y + 15}">{100 * share:.0f}</text>',
    ]


def heading(text, y):
    """The heading above a load's rows."""
    return f'<text class="load" x="16" y="{y + 16}">{escape(text)}</text>'


def drawn_rows(runs, processors, load, y, out):
    """Draws a load's rows from a height on. Returns the height below."""
    words = texts(runs.managed[processors], processors) | {"house": "the house"}
    alone = runs.median("batch", processors, load, "job")
    out.append(heading(LOADS[load], y))
    y += 24
    for way in DRAWN:
        key = (processors, load, way)
        if key in runs.runs:
            out += drawn_row(runs, key, words[way], runs.median("batch", *key) / alone if alone else 0, y)
            y += ROW
    return y + 10


def write_picture(path, title, times, shares, out, y):
    """Writes a picture: a title, a line or two on what the times and the shares are, and what was drawn down to a height."""
    marks = [mark for mark in (0.1, 1, 10, 100, 1000) if mark < MOST]
    grid = [f'<path class="grid" d="M{at(mark):.1f} 76V{y}"/>' for mark in marks]
    grid += [f'<text class="tick" x="{at(mark):.1f}" y="{y + 16}">{mark:g} ms</text>' for mark in marks]
    head = [
        f'<svg xmlns="http://www.w3.org/2000/svg" viewBox="0 0 960 {y + 28}">',
        f"<style>\n{STYLE}\n</style>",
        f'<text class="head" x="16" y="30">{escape(title)}</text>',
        *(f'<text x="16" y="{height}">{escape(line)}</text>' for height, line in zip((54, 70), times)),
        *(f'<text x="{BATCH}" y="{height}">{escape(line)}</text>' for height, line in zip((54, 70), shares)),
    ]
    with open(path, "w", encoding="utf-8") as file:
        print("\n".join([*head, *grid, *out, "</svg>"]), file=file)


def draw(runs, processors, loads, path):
    """Writes the picture of a number of processors."""
    out, y = [], 84
    for load in loads:
        y = drawn_rows(runs, processors, load, y, out) if load != TWO else y
    write_picture(path, f"A service beside a batch job, on the same {runs.managed[processors]} of {processors} processors",
                  ("From the arrival of a task of the service to its end, on a logarithmic scale:",
                   "a bar ends at the 99th percentile, a line is the median"),
                  ("batch job, of 100", "that it does alone"), out, y)
