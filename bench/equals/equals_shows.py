"""How bench/equals/measure shows its runs: a table of where the house is better or worse, and for each case a table per load and a
picture."""
import os
import sys

sys.path.insert(0, os.path.dirname(os.path.dirname(os.path.realpath(__file__))))
from beside_shows import GROWS, ROW, Runs, drawn_row, explained, heading, mark, milliseconds, warning, write_picture  # noqa: E402

FIELDS = ("tasks", "median", "99th", "99.9th", "worst", "least", "most", "batch", "through", "used", "left", "urgent", "others", "stolen")
ALONE = ("alone", "job")  # ways in which nothing is shared


class Load:
    """A load: its text, its program and that one's word for it, OpenMP's wait policy, and the field by which ways are compared."""

    def __init__(self, text, program, word, policy="", aim="99th"):
        self.text, self.program, self.word, self.policy, self.aim = text, program, word, policy, aim


def of_barriers():
    """The loads of parallel applications."""
    loads = {f"spin-{time}": Load(f"threads that spin, regions of {time} us", "barriers-gcc", f"spin-{time}", aim="through")
             for time in (50, 100, 200)}
    loads["yield-100"] = Load("threads that spin, then yield, regions of 100 us", "barriers-gcc", "yield-100", aim="through")
    for library, compiler in (("libgomp", "gcc"), ("libomp", "clang")):
        loads[library] = Load(f"{library} twice, which spins", f"barriers-{compiler}", "openmp-100", "active", "through")
        loads[f"{library}-onetbb"] = Load(f"{library}, which spins, and oneTBB", f"barriers-{compiler}", "onetbb-100", "active", "through")
    loads["libgomp-onetbb-sleeps"] = Load("libgomp, which sleeps, and oneTBB", "barriers-gcc", "onetbb-100", "passive", "through")
    return loads


def of_library():
    """The loads of a library under a pool."""
    loads = {}
    for library, compiler, policy in (("libgomp", "gcc", "active"), ("libomp", "clang", "active"), ("libgomp", "gcc", "passive")):
        for word, text, aim in (("random", "tasks at random moments", "99th"), ("at-once", "all tasks at once", "through")):
            says = f"{library}, which {'spins' if policy == 'active' else 'sleeps'}, {text}"
            loads[f"{library}-{policy}-{word}"] = Load(says, f"library-{compiler}", word, policy, aim)
    return loads


class Case:
    """A case: its title, its loads, the length of its runs as a part of --seconds, and the heading of its picture's second column."""

    def __init__(self, title, loads, part, shares):
        self.title, self.loads, self.part, self.shares = title, loads, part, shares


BATCH, WORK, USED = ("batch work,", "percent of alone"), ("work a second,", "percent of the most"), ("processor time,", "percent in use")
CASES = {
    "services": Case("Services of one level, and a batch job below",
                     {"two": Load("two services", "services", "2"), "three": Load("three services", "services", "3")}, 1, BATCH),
    "barriers": Case("Two parallel applications whose threads wait for one another", of_barriers(), 0.4, WORK),
    "library": Case("A math library under a thread pool", of_library(), 0.6, WORK),
    "runtimes": Case("Two runtimes whose threads look for work before they sleep",
                     {time: Load(f"they look for {time} us", "runtimes", time) for time in ("10", "100", "1000")}, 1, USED),
}


BRIEFS = {  # what the cells of a case's table are
    "services": "99th percentile, ms; batch work, % of alone",
    "barriers": "until both are done, s",
    "library": "99th percentile, or until all is done",
    "runtimes": "99th percentile, ms; processors used, %",
}


def loads_of(case):
    """A case's loads, by their names in kept runs."""
    return {f"{case}/{name}": load for name, load in CASES[case].loads.items()}


class EqualRuns(Runs):
    """The runs of all cases."""

    writer = "bench/equals/measure"

    @staticmethod
    def fields(load):
        return FIELDS

    def spread(self, field, *key):
        """The least, the median and the most of a field over the runs that count."""
        values = [run[field] for run in self.of(*key)[0]]
        return min(values), self.median(field, *key), max(values)

    def ways(self, processors, load):
        """The ways that were run at a load."""
        return [key[2] for key in self.runs if key[:2] == (processors, load)]

    def urgent(self):
        """Whether tasks were brought on time in all runs."""
        return all(run["urgent"] for runs in self.runs.values() for run in runs)


def texts(managed, processors):
    """What each way is called, in the order of the tables."""
    return {
        "house": f"the house, which manages {managed}",
        "house-all": f"the house, which manages {processors}",
        "none": "no arbiter",
        "divided": "threads divided among tasks",
        "parts": "fixed parts",
        "turns": "one at a time",
        "nice": "batch job at `nice` 19",
        "idle": "batch job at `SCHED_IDLE`",
        "fifo": "all at `SCHED_FIFO`",
        "rr": "all at `SCHED_RR`",
        "alone": "one of them alone",
        "job": "the batch job alone",
    }


# ---- tables


def with_spread(spread, told):
    """A cell: the median, and behind it the least and the most where they differ from it."""
    least, median, most = (told(value) for value in spread)
    return median if least == most else f"{median} ({least} to {most})"


def seconds(value):
    """Seconds, with three digits that count."""
    return milliseconds(1000 * value)


def table(runs, case, processors, load):
    """The lines of a table of all ways at a load."""
    services, words = case == "services", texts(runs.managed[processors], processors)
    alone = runs.median("batch", processors, load, "job")
    lines = ["| Way | Median, ms | 99th | 99.9th | Tasks a second, least and most | All done after, s | Processors used, % | Left, % |"
             + (" Batch work, % of alone |" if services else "")]
    lines.append("|" + "---|" * (9 if services else 8))
    for way in (way for way in words if way in runs.ways(processors, load)):
        key = (processors, load, way)
        cells = [words[way] + mark(runs, key), milliseconds(runs.median("median", *key)), with_spread(runs.spread("99th", *key), milliseconds),
                 milliseconds(runs.median("99.9th", *key)), f"{runs.median('least', *key):,.0f}, {runs.median('most', *key):,.0f}",
                 with_spread(runs.spread("through", *key), seconds), f"{runs.median('used', *key):.0f}",
                 f"{runs.median('left', *key):.0f}" if runs.grows(*key) else ""]
        if services:
            cells.append(f"{100 * runs.median('batch', *key) / alone:.0f}" if alone and way != "alone" else "")
        lines.append("| " + " | ".join(cells) + " |")
    return explained(runs, lines)


def beside_best(runs, processors, load, house, aim):
    """A cell: the house's median divided by the best other way's, and whether their runs overlap. Unfinished runs are worse."""
    key = (processors, load, house)
    others = [(processors, load, way) for way in runs.ways(processors, load) if not way.startswith("house") and way not in ALONE]
    if key not in runs.runs or not others:
        return ""
    best = min(others, key=lambda other: (runs.grows(*other), runs.median(aim, *other)))
    said = f"{runs.median(aim, *key) / runs.median(aim, *best):.2f}{'+' if runs.grows(*key) else ''} of `{best[2]}`"
    star = mark(runs, key) or mark(runs, best)
    if star:
        return said + star
    mine, theirs = ([(run["left"] >= GROWS, run[aim]) for run in runs.of(*way)[0]] for way in (key, best))
    if max(mine) < min(theirs):
        return f"**{said}**"
    return said + (", worse" if min(mine) > max(theirs) else ", even")


def brief_cell(runs, case, key, aim):
    """A cell: the compared time, and for services the batch job's work, for runtimes the processor time."""
    if key not in runs.runs:
        return ""
    value = (milliseconds if aim == "99th" else seconds)(runs.median(aim, *key)) + ("+" if runs.grows(*key) else "")
    if case == "runtimes":
        value += f"; {runs.median('used', *key):.0f}"
    alone = runs.median("batch", *key[:2], "job") if case == "services" else None
    return value + (f"; {100 * runs.median('batch', *key) / alone:.0f}" if alone else "") + mark(runs, key)


def brief(runs, processors, case):
    """The lines of a case's table: a row for each load, a column for each way, and how the house compares with the best other."""
    loads = {name: load for name, load in loads_of(case).items() if runs.ways(processors, name)}
    ways = [way for way in texts(0, 0) if way not in ALONE and any(way in runs.ways(processors, name) for name in loads)]
    names = {"house": f"house on {runs.managed[processors]}", "house-all": f"house on {processors}"}
    houses = [way for way in ways if way in names]
    lines = ["| " + " | ".join([BRIEFS[case], *(names.get(way, f"`{way}`") for way in ways), *(f"{names[way]} by the best other" for way in houses)]) + " |"]
    lines.append("|" + "---|" * (1 + len(ways) + len(houses)))
    for name, load in loads.items():
        cells = [brief_cell(runs, case, (processors, name, way), load.aim) for way in ways]
        unit = ", s" if load.aim == "through" and case == "library" else ", ms" if case == "library" else ""
        lines.append("| " + " | ".join([load.text + unit, *cells, *(beside_best(runs, processors, name, way, load.aim) for way in houses)]) + " |")
    return explained(runs, lines)


def tell(runs, processors, cases):
    """The lines of all tables."""
    managed, (steps, capacity, length) = runs.managed[processors], runs.calibrated[processors]
    lengths = ", ".join(f"{name} {float(length) * case.part:g} s" for name, case in CASES.items())
    out = [f"Measured on: {runs.machine}.", "", f"{processors} processors. A task of 50 us has {int(steps):,} steps; all processors do "
           f"{int(capacity):,} of these a second. Length of a run: {lengths}. At most {max(map(len, runs.runs.values()))} runs a way."]
    if not runs.urgent():
        out += ["", "**`SCHED_FIFO` was refused**: tasks may have been brought late on busy processors."]
    out += [*warning(runs, processors), "", "The last columns divide the house's time by the best other way's. Bold: each run of the "
            "house was better than each of the other way's; *worse*: the reverse; *even*: they overlap. `+`: unfinished, which is worse than finished."]
    for case in cases:
        out += ["", f"### {CASES[case].title}", "", *brief(runs, processors, case)]
        for name, load in loads_of(case).items():
            if runs.ways(processors, name):
                out += ["", f"{load.text[0].upper()}{load.text[1:]}:", "", *table(runs, case, processors, name)]
    return out


# ---- pictures


def share_of(runs, case, key, ways):
    """A way's bar in the second column, 0 to 1."""
    if case == "runtimes":
        return runs.median("used", *key) / 100
    if case == "services":
        alone = runs.median("batch", key[0], key[1], "job")
        return runs.median("batch", *key) / alone if alone else 0
    if case == "library":  # one application; its tasks that are unfinished don't count
        rates = {way: runs.median("least", *key[:2], way) for way in ways}
    else:
        rates = {way: runs.median("tasks", *key[:2], way) / runs.median("through", *key[:2], way) for way in ways}
    return rates[key[2]] / max(rates.values())


def draw(runs, case, processors, path):
    """Writes the picture of a case."""
    out, y, words = [], 84, texts(runs.managed[processors], processors)
    for name, load in loads_of(case).items():
        ways = [way for way in words if way in runs.ways(processors, name) and way not in ALONE]
        out.append(heading(load.text, y))
        y += 24
        for way in ways:
            key = (processors, name, way)
            out += drawn_row(runs, key, words[way], share_of(runs, case, key, ways), y)
            y += ROW
        y += 10
    write_picture(path, CASES[case].title, ("Time of a task from its arrival, or of a region from the end of the one before, on a logarithmic scale.",
                                            "A bar ends at the 99th percentile; its line is the median."), CASES[case].shares, out, y)
