#!/usr/bin/env python3
"""Writes the tables of measured figures in README.md, docs/FIGURES.md and docs/TUTORIAL.md, from tools/data/figures.txt (times) and memory.txt (bytes
that the heap holds).

Each file has a head (`== commit, date, machine`), and a line for each row (its name, a colon, and its values, each behind its word and with its unit).
`bench/messages --record` and `bench/memory --record` measure anew and hand what they print to this tool, which replaces the file. The README's line on memory
also has numbers of docs/FIGURES.md, *Memory*:

    tools/pages/figures.py                  writes the tables
    tools/pages/figures.py --record         replaces figures.txt by what is read from standard input, and writes the tables
    tools/pages/figures.py --record-memory  the same with memory.txt
    tools/pages/figures.py --check          writes nothing, and ends with status 1 where a table is not that of the file, or where the text above a
                                            table does not name the file's commit
"""
import math
import os
import re
import subprocess
import sys
import textwrap
from datetime import datetime, timezone

TOP = os.path.dirname(os.path.dirname(os.path.dirname(os.path.abspath(__file__))))
FILE, MEMORY_FILE = "tools/data/figures.txt", "tools/data/memory.txt"
README, FIGURES, TUTORIAL = "README.md", "docs/FIGURES.md", "docs/TUTORIAL.md"
BENCH, MEMORY_BENCH = "bench/messages", "bench/memory"
HEAD = f"""# What was measured last, at one commit and on one machine. Written by `{BENCH} --record`; tools/pages/figures.py writes the tables of README.md,
# docs/FIGURES.md and docs/TUTORIAL.md from it.
"""
MEMORY_HEAD = f"""# What the heap held, at one commit. Written by `{MEMORY_BENCH} --record`; tools/pages/figures.py writes the table of docs/FIGURES.md from it, and README.md's
# line on memory.
"""
SIZES = ("1 MiB", "16 MiB")
# The rows of the README: what it calls them, and what `bench/messages` does, in a document of CITED_SIZE.
CITED_SIZE = "16 MiB"
CITED = {
    "typing a byte": "typing, a line end each 40",
    "undoing that": "undo of typing, a byte",
    "inserting at random": "8 bytes in at random",
    "loading it": "INSERTTEXT of all",
    "reading a byte": "GETCHARAT",
    "searching it forwards": "SEARCHINTARGET, all of it",
}
# The rows of the tutorial, for a key and for a row of a window: what it asks, how often, and what `bench/messages` does.
ASKED_BY_KEY = {"a typed byte": "typing, a line end each 40", "the caret's line: SCI_LINEFROMPOSITION": "LINEFROMPOSITION"}
ASKED_BY_ROW = {
    "a row's line: SCI_DOCLINEFROMVISIBLE": (1, "DOCLINEFROMVISIBLE"),
    "where it starts, or ends: SCI_POSITIONFROMLINE": (2, "POSITIONFROMLINE"),
    "its bytes: `hongpilas_lend_range`": (1, "a line lent (GETRANGEPOINTER)"),
    "its bookmarks: SCI_MARKERGET": (1, "MARKERGET"),
}
WINDOW = 50
# What docs/FIGURES.md says of memory after random work.
WORKED_ON = re.compile(r"After random edits by `out/load`, at commit (?P<commit>\w+), in (?P<size>\d+ MiB) of text: (?P<held>[\d.]+) MiB held, (?P<alive>[\d.]+) of them in use")
# How the rows of the benchmark are named whose view listens. The README counts the others alone.
NOTIFIED = ", notified"
# The rows that it prints; times are followed by their medians.
PRINTED = re.compile(r"^\| (?P<name>.+?) +\| +(?P<size>\d+) \| +(?P<ours>[\d.]+) .*?\| +(?P<Scintilla>[\d.]+) .*?\| +[\d.]+ \|$", re.M)
PRINTED_MEMORY = re.compile(r"^\| (?P<name>.+?) +\| +(?P<ours>[\d.]+) \| +(?P<Scintilla>[\d.]+) \|$", re.M)


def read(path):
    with open(os.path.join(TOP, path), encoding="utf-8") as file:
        return file.read()


def write(path, text):
    with open(os.path.join(TOP, path), "w", encoding="utf-8") as file:
        file.write(text)


def recorded(path=FILE):
    """The file's head, and the lines of its rows."""
    head, rows = re.search(r"^== ([^\n]*)\n(.*)", read(path), re.M | re.S).groups()
    return head, rows.splitlines()


def commit_of(head):
    return head.split(",")[0].removeprefix("commit ")


def values_of(row):
    """A row's name, and its values by their words, as `ours` to `188 ns`."""
    name, _, values = row.rpartition(": ")
    return name, dict(value.split(" ", 1) for value in values.split(", "))


def number(value):
    return float(value.split()[0])


# ---- What was measured beside Scintilla ----

def times():
    """Each row's times here and in Scintilla, in nanoseconds, by its name and size."""
    found = {}
    for row in recorded()[1]:
        name, values = values_of(row)
        name, size = name.rsplit(", ", 1)
        found.setdefault(name, {})[size] = number(values["ours"]), number(values["Scintilla"])
    return found


def ratio(pair):
    return f"{pair[0] / pair[1]:.2f}"


def readable(nanoseconds):
    """A time as the page has it: in microseconds from 100,000 nanoseconds on."""
    return f"{nanoseconds:,.0f}" if nanoseconds < 100_000 else f"{nanoseconds / 1000:,.0f} µs"


def short(nanoseconds):
    """A time with its unit, as the README has it."""
    for unit, size in (("ms", 1e6), ("µs", 1e3), ("ns", 1)):
        if nanoseconds >= size:
            return f"{nanoseconds / size:.3g} {unit}"
    return f"{nanoseconds:.2g} ns"


def table(titles, rows):
    lines = ["".join(f"| {cell} " if cell else "| " for cell in line) + "|" for line in (titles, *rows)]
    return "\n".join([lines[0], "|---" * len(titles) + "|", *lines[1:]]) + "\n"


def beside_scintilla():
    def cells(pair):
        return [readable(pair[0]), readable(pair[1]), ratio(pair)] if pair else ["", "", ""]
    titles = ["Work", "1 MiB: ours", "Scintilla", "ratio", "16 MiB: ours", "Scintilla", "ratio"]
    return table(titles, [[name, *(cell for size in SIZES for cell in cells(sizes.get(size)))] for name, sizes in times().items()])


def filled(text):
    return textwrap.fill(text, 160, break_long_words=False, break_on_hyphens=False)


def of_tutorial():
    """The tutorial's table, and what a window costs."""
    found = times()
    named = {**ASKED_BY_KEY, **{name: work for name, (_, work) in ASKED_BY_ROW.items()}}
    rows = [[name, *(readable(found[work].get(size, found[work][SIZES[0]])[0]) for size in SIZES)] for name, work in named.items()]
    sums = [sum(count * found[work][size][0] for count, work in ASKED_BY_ROW.values()) * WINDOW / 1000 for size in SIZES]
    window = " and ".join(f"{it:.0f} µs in {size}" for it, size in zip(sums, SIZES))
    return table(["What is asked", *SIZES], rows) + f"\nSo the queries for a window of {WINDOW} rows take {window}, without fold levels and styles (SCI_GETSTYLEDTEXT), which were not measured.\n"


# ---- What the heap held ----

def held():
    """How many bytes are held here and in Scintilla, by what they are held for."""
    rows = (values_of(row) for row in recorded(MEMORY_FILE)[1])
    return {name: (number(values["ours"]), number(values["Scintilla"])) for name, values in rows}


def counted(bytes_held):
    """Bytes, as the page has them."""
    return f"{bytes_held:.2f}" if bytes_held < 100 else f"{bytes_held:,.0f}"


def of_memory():
    """The table: what says the same before its colon stands in one row."""
    groups = {}
    for name, pair in held().items():
        what, _, case = name.partition(": ")
        groups.setdefault(what, []).append((case, *map(counted, pair)))
    rows = [[what + ": " * bool(cases[0]) + "; ".join(cases), *map("; ".join, sides)] for what, group in groups.items() for cases, *sides in [zip(*group)]]
    return table(["Bytes held for each", "ours", "Scintilla"], rows)


def on_memory():
    """The README's line."""
    worked_on = WORKED_ON.search(" ".join(read(FIGURES).split()))
    if not worked_on:
        sys.exit(f"{FIGURES}: no sentence on random work, under *Memory*")
    (text, line), (their_text, their_line) = zip(*(held()[name] for name in ("byte: loaded", "line: start")))
    styled = held()["byte: styled"]
    return (f"**Memory.** A byte takes {text:.2f} bytes loaded, {styled[0]:.2f} styled, a line {line:.2f} "
            f"(Scintilla: {their_text:.2f}, {styled[1]:.2f}, {their_line:.2f}). After minutes of random edits in {worked_on['size']} of text, the heap held "
            f"{float(worked_on['held']):.0f} MiB, {float(worked_on['alive']):.0f} of them in use ({worked_on['commit']}): a document keeps its spare capacity.")


# ---- The README ----

def of_readme():
    """The README's section on figures."""
    all_times, head = {name: sizes for name, sizes in times().items() if not name.endswith(NOTIFIED)}, recorded()[0]
    pairs = {(name, size): pair for name, sizes in all_times.items() for size, pair in sizes.items()}
    mean = math.exp(sum(math.log(ours / theirs) for ours, theirs in pairs.values()) / len(pairs))
    quick = sum(float(ratio(pair)) <= 1 for pair in pairs.values())
    (name, size), greatest = max(pairs.items(), key=lambda row: row[1][0] / row[1][1])
    on_all = (f"Of {len(pairs)} ratios {quick} are at most 1 (less is better); geometric mean {mean:.2f}, greatest {ratio(greatest)} ({name}). "
              f"By `{BENCH}`, commit {commit_of(head)} ([`FIGURES`]({FIGURES})).")
    cited = [(name, all_times[work][CITED_SIZE]) for name, work in CITED.items()]
    rows = [[name, short(ours), short(theirs), ratio((ours, theirs))] for name, (ours, theirs) in cited]
    return f"""## Figures

| In a text of {CITED_SIZE} | Hongpilas | Scintilla 5.3.3 | ratio |
|---|---|---|---|
{"".join("| " + " | ".join(row) + " |" + chr(10) for row in rows)}
{filled(on_all)}

{filled(on_memory())}

"""


# ---- The pages ----

def replaced(page, title, pattern, new):
    """The page with what the pattern finds first in a section replaced."""
    section = re.search(rf"^## {title}\n.*?(?=^## |\Z)", page, re.M | re.S)
    if not section or not re.search(pattern, section[0], re.M | re.S):
        sys.exit(f"no section {title}, or no table in it")
    written = re.sub(pattern, lambda _: new, section[0], count=1, flags=re.M | re.S)
    return page[:section.start()] + written + page[section.end():]


def pages():
    """What the pages are to be."""
    figures = replaced(read(FIGURES), "Beside Scintilla", r"(^\|[^\n]*\n)+", beside_scintilla())
    figures = replaced(figures, "Memory", r"(^\|[^\n]*\n)+", of_memory())
    tutorial = replaced(read(TUTORIAL), "What a frame costs", r"(^\|[^\n]*\n)+(\nSo the queries [^\n]*\n)?", of_tutorial())
    return {README: replaced(read(README), "Figures", r"\A.*\Z", of_readme()), FIGURES: figures, TUTORIAL: tutorial}


def faults():
    for path, wanted in pages().items():
        if read(path) != wanted:
            yield f"{path}: the figures are not those of {FILE} and {MEMORY_FILE}: run tools/pages/figures.py"
    for path, title, file in ((FIGURES, "Beside Scintilla", FILE), (FIGURES, "Memory", MEMORY_FILE), (TUTORIAL, "What a frame costs", FILE)):
        commit = commit_of(recorded(file)[0])
        section = re.search(rf"^## {title}\n(.*?)^\|", read(path), re.M | re.S)
        if commit not in section[1]:
            yield f"{path}: the text of *{title}* does not name the commit of its table, {commit}"


# ---- Recording ----

def machine():
    with open("/proc/cpuinfo", encoding="utf-8") as processors:
        models = re.findall(r"^model name\s*: (.*)$", processors.read(), re.M)
    return f"{os.cpu_count()} processors ({models[0] if models else 'of a model that is not told'})"


def commit_here():
    """The commit whose crates are measured: they have to be as it has them."""
    measured = ["crates", "include", "c", "bench", "tools/ci/heap_count.c"]
    if subprocess.run(["git", "-C", TOP, "diff", "--quiet", "HEAD", "--", *measured]).returncode:
        sys.exit(f"{', '.join(measured)}: something differs from the last commit, so the figures would be of none")
    command = ["git", "-C", TOP, "rev-parse", "--short=7", "HEAD"]
    return subprocess.run(command, check=True, capture_output=True, text=True).stdout.strip()


def rows_of(printed):
    """The rows, each with the least of all sets."""
    least, sets = {}, {}
    for row in PRINTED.finditer(printed):
        name = f"{row['name']}, {row['size']} MiB"
        pair = float(row["ours"]), float(row["Scintilla"])
        least[name] = tuple(map(min, least.get(name, pair), pair))
        sets[name] = sets.get(name, 0) + 1
    if len({*sets.values()}) > 1:
        sys.exit("some rows were measured oftener than others")
    return [f"{name}: ours {ours:.10g} ns, Scintilla {theirs:.10g} ns" for name, (ours, theirs) in least.items()]


def shown(lines):
    """The lines, each shown as it comes: a run takes minutes."""
    for line in lines:
        print(line, end="", flush=True)
        yield line


def memory_rows_of(printed):
    return [f"{row['name']}: ours {row['ours']} bytes, Scintilla {row['Scintilla']} bytes" for row in PRINTED_MEMORY.finditer(printed)]


def record(path, head, rows_of_text):
    commit = commit_here()
    rows = rows_of_text("".join(shown(sys.stdin)))
    # A row that went by another name before, or failed, is told.
    before, now = ({values_of(row)[0] for row in lines} for lines in (recorded(path)[1], rows))
    if before - now:
        sys.exit("not measured: " + "; ".join(sorted(before - now)))
    write(path, f"{head}\n== commit {commit}, {datetime.now(timezone.utc):%Y-%m-%d}, {machine()}\n" + "".join(f"{row}\n" for row in rows))
    print(f"{path}: {len(rows)} rows")


def main():
    words = sys.argv[1:]
    if words[:1] == ["--record"]:
        record(FILE, HEAD, rows_of)
    elif words[:1] == ["--record-memory"]:
        record(MEMORY_FILE, MEMORY_HEAD, memory_rows_of)
    elif words == ["--check"]:
        wrong = list(faults())
        print("\n".join(wrong) or f"the figures of {README}, {FIGURES} and {TUTORIAL} are those of {FILE} and {MEMORY_FILE}")
        sys.exit(bool(wrong))
    for path, wanted in pages().items():
        write(path, wanted)
    # What a text says of figures is written by hand.
    print("".join(f"{fault}\n" for fault in faults()), end="")


if __name__ == "__main__":
    main()
