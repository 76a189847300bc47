#!/usr/bin/env python3
"""Checks that what a page names is there: each page, and each path within the repository.

    tools/pages/paths.py                        names what is not there, and ends with status 1 where there is any
    tools/pages/paths.py --installed FOLDER     the same for the pages that `make install` puts in share/doc/hongpilas

The pages are those of the repository's top and of docs/, and the READMEs of folders and crates. A page is named by its name in capitals
(`MESSAGES.md`), or linked; a path stands between backticks, has a slash, and begins at the top, at the page's folder, in crates/ or in a crate
(`specs/Table`). A page that is installed with the library for C names only pages that are installed too: whoever reads it there may have no more. Its links
lead to what is installed; a path may be one of the sources, if it begins as SOURCES do.
"""
import glob
import os
import re
import sys

TOP = os.path.dirname(os.path.dirname(os.path.dirname(os.path.abspath(__file__))))
PAGES = ("*.md", "docs/*.md", "*/README.md", "*/*/README.md")
# What `make install` copies, as the Makefile names it.
INSTALLED = re.compile(r"^DOCS := .*,(.*)\)$", re.M)
MAKEFILE = "Makefile"
NAMED = re.compile(r"(?<![\w/.-])([A-Z][A-Z_]+\.md)\b")
LINKED = re.compile(r"\]\(([^)#:]+)(?:#[^)]*)?\)")
PATH = re.compile(r"`((?:\.\./)*[\w.-]+/[\w./-]*)`")
# What a build or an installation makes.
MADE = re.compile(r"(^|/)out(/|$)|^lib/|^PREFIX/")
# The folders of the sources whose paths installed pages may name, as c/packaging/installed.md says.
SOURCES = ("crates/", "tools/", "tests/", "bench/")


def read(path):
    with open(os.path.join(TOP, path), encoding="utf-8") as file:
        return file.read()


def is_there(path, folder):
    """Whether a path that a page in a folder names is in the repository."""
    if any(os.path.exists(os.path.join(TOP, base, path)) for base in ("", folder, "crates")):
        return True
    return any(glob.glob(os.path.join(TOP, "crates", "*", path + ending)) for ending in ("", ".antt"))


def prose_of(text):
    """A page without what is quoted."""
    return re.sub(r"^(```.*?^```|    .*?)$", "", text, flags=re.M | re.S)


def faults(page, installed):
    folder, prose = os.path.dirname(page), prose_of(read(page))
    pages = set(NAMED.findall(prose))
    yield from (f"{page}: there is no {name}" for name in sorted(pages) if not any(is_there(name, it) for it in ("", "docs", folder)))
    yield from (f"{page}: no link leads to {name}" for name in sorted(set(LINKED.findall(prose))) if not os.path.exists(os.path.join(TOP, folder, name)))
    yield from (f"{page}: there is no {path}" for path in sorted(set(PATH.findall(prose))) if not MADE.search(path) and not is_there(path, folder))
    if os.path.basename(page) in installed and folder == "docs":
        named = pages | set(re.findall(r"\bdocs/([A-Z_]+\.md)", prose))
        yield from (f"{page} is installed, and names {name}, which is not" for name in sorted(named - installed))


def faults_installed(folder, page):
    with open(os.path.join(folder, page), encoding="utf-8") as file:
        prose = prose_of(file.read())
    paths = {path for path in PATH.findall(prose) if not path.startswith(SOURCES) and not MADE.search(path)}
    for name in sorted(paths | set(NAMED.findall(prose)) | set(LINKED.findall(prose))):
        if "://" not in name and not os.path.exists(os.path.join(folder, name)):
            yield f"{os.path.join(folder, page)}: {name} is not installed"


def main():
    if sys.argv[1:2] == ["--installed"]:
        folder = sys.argv[2]
        pages = sorted(name for name in os.listdir(folder) if name.endswith(".md"))
        wrong = [fault for page in pages for fault in faults_installed(folder, page)]
        print("\n".join(wrong) or f"what {len(pages)} installed pages name is there")
        sys.exit(bool(wrong) or not pages)
    installed = set(INSTALLED.search(read(MAKEFILE))[1].split())
    pages = sorted({os.path.relpath(it, TOP) for pattern in PAGES for it in glob.glob(os.path.join(TOP, pattern))})
    wrong = [fault for page in pages for fault in faults(page, installed)]
    print("\n".join(wrong) or f"what {len(pages)} pages name is there")
    sys.exit(bool(wrong))


main()
