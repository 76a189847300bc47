#!/usr/bin/env python3
"""Writes the table of runs by hand in docs/TESTING.md, from tools/data/campaign.txt and the parts of tests/campaign.

    tools/pages/campaign.py             writes the table, and prints of which commit each part's runs are, and how many commits have changed
                                        the library's sources since
    tools/pages/campaign.py --check     writes nothing, and ends with status 1 where the table is not that of the file, where the file is not as
                                        `tests/campaign` writes it, or where a run in it failed

The page names commits, and not how old they are: so it stays true when another commit is added, and the check needs no history."""
import importlib.machinery
import importlib.util
import subprocess
import sys

from figures import read, replaced, table, TOP, write

sys.dont_write_bytecode = True
PAGE, SECTION = "docs/TESTING.md", "Runs by hand"


def campaign():
    """The module of tests/campaign: it knows the parts, and how the file is read."""
    loader = importlib.machinery.SourceFileLoader("tests_campaign", f"{TOP}/tests/campaign")
    module = importlib.util.module_from_spec(importlib.util.spec_from_loader("tests_campaign", loader))
    sys.modules["tests_campaign"] = module
    loader.exec_module(module)
    return module


def seeds_of(runs):
    """The seeds in words, as `seed 1`, `seeds 1 to 10`, `seeds 1, 3`, with a comma before them; nothing where there are none."""
    seeds = sorted(int(it.seed) for it in runs if it.seed)
    if not seeds:
        return ""
    if len(seeds) == 1:
        return f", seed {seeds[0]}"
    is_row = seeds == list(range(seeds[0], seeds[0] + len(seeds)))
    return f", {len(runs)} runs, seeds " + (f"{seeds[0]} to {seeds[-1]}" if is_row else ", ".join(map(str, seeds)))


def counted(number, name, wrong):
    """A count in words: `no difference` or `none missed` where nothing is wrong."""
    one = name.removesuffix("s")
    if number or name != wrong:
        return f"{number:,} {one if number == 1 else name}"
    return f"none {name}" if name == one else f"no {one}"


def last_run(module, part, commit, runs):
    """The cell of a part: commit, seeds and minutes, what was counted, and the first failure."""
    minutes, counts = module.added(runs)
    faults = [it.fault for it in runs if it.fault]
    told = ", ".join(counted(number, name, part.wrong) for name, number in counts.items())
    return f"{commit}{seeds_of(runs)}" + f", {minutes} minutes" * bool(minutes) + f": {told}" + "".join(f"; FAILED: {it}" for it in faults[:1])


def page(module, record):
    """What the page is to be."""
    rows = [[f"`{it.name}`", it.what, last_run(module, it, *record[it.name]) if it.name in record else "not yet"] for it in module.PARTS]
    return replaced(read(PAGE), SECTION, r"(^\|[^\n]*\n)+", table(["Part", "What is tested", "The last run, and its commit"], rows))


def faults(module, record):
    if read(module.FILE) != module.text_of(record):
        yield f"{module.FILE}: it is not as tests/campaign writes it"
    if read(PAGE) != page(module, record):
        yield f"{PAGE}: the table of *{SECTION}* is not that of {module.FILE}: run tools/pages/campaign.py"
    yield from (f"{module.FILE}: tests/campaign has no part {name}" for name in sorted(record.keys() - {it.name for it in module.PARTS}))
    for name, (_, runs) in record.items():
        yield from (f"{module.FILE}: {name} failed{f' with seed {it.seed}' * bool(it.seed)}: {it.fault}; mend it, and run it again" for it in runs if it.fault)


def since(module, commit):
    """How many commits have changed the library's sources since one, in words."""
    counting = ["git", "-C", TOP, "rev-list", "--count", f"{commit}..HEAD", "--", *module.SOURCES]
    ran = subprocess.run(counting, capture_output=True, text=True, check=False)
    count = ran.stdout.strip()
    if ran.returncode:
        return "which this clone's history does not have"
    return "of the sources as they are" if count == "0" else f"{count} {'commit' if count == '1' else 'commits'} of the sources ago"


def main():
    module = campaign()
    record = module.recorded(read(module.FILE))
    if sys.argv[1:] == ["--check"]:
        wrong = list(faults(module, record))
        print("\n".join(wrong) or f"the runs by hand of {PAGE} are those of {module.FILE}")
        return int(bool(wrong))
    if sys.argv[1:]:
        sys.exit(__doc__)
    write(PAGE, page(module, record))
    for part in module.PARTS:
        print(f"{part.name}: " + (f"{record[part.name][0]}, {since(module, record[part.name][0])}" if part.name in record else "not run yet"))
    return 0


if __name__ == "__main__":
    sys.exit(main())
