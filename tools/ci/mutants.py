"""The crates with their wrong bodies, as crates.txt and crates/CRATE/must-fail have them; for tools/ci/wrong_bodies."""
import os
import re
import sys

TOP = os.path.dirname(os.path.dirname(os.path.dirname(os.path.abspath(__file__))))
PARTS = ("src", "specs", "proofs")
# A block of a page; and what there is of each block, however it is written: a heading, and two fences.
BLOCK = re.compile(r"^## (\w+)\n\n```\n(.*?)\n```$", re.M | re.S)
HEADING = re.compile(r"^ *##", re.M)
FENCE = re.compile(r"^ *(?:```|~~~)", re.M)
# A function's head in a source, and an impl's.
HEAD = re.compile(r"^( *)(?:pub(?:\(\w+\))? )?(?:const |unsafe |extern \"C\" )*fn (\w+)", re.M)
IMPL = re.compile(r"^(?:unsafe )?impl\b.*", re.M)
# How many bodies are tried in one copy at most.
MOST = 24


def libraries(top=TOP):
    """The libraries that crates.txt lists for each crate."""
    found = {}
    with open(f"{top}/crates.txt", encoding="utf-8") as rows:
        for row in rows:
            head, _, names = row.partition("#")[0].partition(":")
            if head.strip():
                found[head.split()[0]] = names.split()
    return found


def lowest_first(listed, names):
    """These crates and those that they use, each behind what it uses."""
    found = []

    def add(name):
        if name in listed and name not in found:
            for it in listed[name]:
                add(it)
            found.append(name)

    for name in names:
        add(name)
    return found


class Source:
    """The sources of a crate: its texts, by file."""

    def __init__(self, crate):
        self.texts = {}
        for folder, _, files in os.walk(f"{TOP}/crates/{crate}"):
            part = os.path.relpath(folder, f"{TOP}/crates/{crate}")
            if part.split(os.sep)[0] in PARTS:
                for file in files:
                    with open(f"{folder}/{file}", encoding="utf-8") as it:
                        self.texts[f"{part}/{file}"] = it.read()

    def function_around(self, file, part):
        """The function in whose body the text stands, as a check names it by the end of its path; None where it is in none."""
        text = self.texts[file]
        at = text.find(part)
        heads = [it for it in HEAD.finditer(text) if it.start() <= at]
        if not file.startswith("src/") or not heads:
            return None
        head = heads[-1]
        indent, name = head.groups()
        body = re.compile(rf"^{indent}\{{$|\{{$", re.M).search(text, head.start())
        end = re.compile(rf"^{indent}\}}$", re.M).search(text, head.end())
        if not body or at < body.end() or (end and end.end() < at):
            return None
        owners = [it.group() for it in IMPL.finditer(text) if it.start() < head.start()]
        if indent and owners:
            owner = owners[-1]
            while re.search(r"<[^<>]*>", owner):
                owner = re.sub(r"<[^<>]*>", "", owner)
            words = re.sub(r"^(?:unsafe )?impl|\{.*|\bwhere\b.*", "", owner).split(" for ")
            return f"{''.join(it.split('::')[-1].strip() for it in reversed(words))}::{name}"
        stem = os.path.basename(file)[: -len(".rt")]
        return name if stem in ("lib", "main") else f"{stem}::{name}"


class Body:
    """A wrong body: its name, and the texts that it puts in the place of others, by file."""

    def __init__(self, name, text, source):
        self.name, self.swaps, self.only = name, [], set()
        file = old = None
        for line in text.split("\n"):
            word, _, rest = line.partition(":")
            rest = rest[1:] if rest.startswith(" ") else rest
            if word == "only":
                self.only.add(rest.strip())
            elif word == "file":
                file = rest.strip()
            elif word == "old":
                old = rest
            elif word == "new":
                self.swaps.append((file, old, rest))
        self.fault = self.put_into(dict(source.texts))
        around = None if self.fault else self.around(source)
        self.functions, self.stands_in_functions = self.only or around or set(), around is not None

    def put_into(self, texts):
        """Puts it into the texts; says what is wrong with it, or nothing."""
        for file, old, new in self.swaps:
            if not file.startswith("src/"):
                return f"it edits {file}: only an edit of a source shows something of a contract"
            if file not in texts:
                return f"there is no {file}"
            if texts[file].count(old) != 1:
                return f"{old!r} stands in {file} {texts[file].count(old)} times"
            texts[file] = texts[file].replace(old, new)
        return None if self.swaps else "it changes nothing"

    def around(self, source):
        """The functions in whose bodies all of it stands; None where some of it stands elsewhere."""
        found = {source.function_around(file, old) for file, old, _ in self.swaps if source.texts[file].count(old) == 1}
        return None if None in found or not found else found

    def is_among(self, names):
        """Whether one of the functions, which a check names whole, is its own."""
        return any(re.search(rf"(?:^|::){re.escape(of)}(?:\+.*|::\{{.*)?$", name) for name in names for of in self.functions)


def bodies_of(crate, rules_alone, source):
    """The wrong bodies of a crate. Ends with an error where a page has more than the blocks that are read of it."""
    folder = f"{TOP}/crates/{crate}/must-fail"
    found = []
    for page in sorted(os.listdir(folder)) if os.path.isdir(folder) else []:
        with open(f"{folder}/{page}", encoding="utf-8") as it:
            said = it.read()
        if page.endswith(".edit") and not rules_alone:
            found.append(Body(page[: -len(".edit")], said, source))
        elif page == "rules.md" or (page == "more.md" and not rules_alone):
            blocks = BLOCK.findall(said)
            headings, fences = len(HEADING.findall(said)), len(FENCE.findall(said))
            if headings != len(blocks) or fences != 2 * len(blocks):
                sys.exit(f"{folder}/{page}: {headings} headings and {fences} fences, of which {len(blocks)} blocks can be read")
            found += [Body(name, text, source) for name, text in blocks]
    names = [it.name for it in found]
    if len(set(names)) < len(names):
        sys.exit(f"{crate}: two wrong bodies have one name: {max(names, key=names.count)}")
    return found


def batches(bodies, source):
    """The bodies in groups of MOST at most, no two of a group in one function. What does not stand in functions' bodies is by itself."""
    groups = []
    for body in bodies:
        for group in groups if body.stands_in_functions else ():
            texts = dict(source.texts)
            others = set().union(*(it.functions for it in group if it.stands_in_functions))
            if others and len(group) < MOST and not body.functions & others and not any(it.put_into(texts) for it in [*group, body]):
                group.append(body)
                break
        else:
            groups.append([body])
    return groups
