"""python -m hongpilas run [--quiet] SCRIPT [FILE...]: runs a script in a new session, and prints what comes of each command.

It prints what `sci_console run` prints, and behind "read fault" also which file; and ends with its statuses: 0 done, 1 no script or out of memory,
2 wrong words, 3 a read or a write failed, 4 done, and something expected did not come.
"""
from __future__ import annotations

import argparse
import sys
from typing import Sequence

from ._session import Refused, Session
from .scripts import FILE_BYTES, SCRIPT_BYTES, Runner, ScriptFault, assemble


def words() -> argparse.Namespace:
    """The words behind the program's name."""
    parser = argparse.ArgumentParser(
        prog="python -m hongpilas", description="Runs editing scripts.", usage="%(prog)s [-h] run [--quiet] SCRIPT [FILE ...]"
    )
    parser.add_argument("word", metavar="run", choices=["run"], help="runs a script")
    parser.add_argument("script", metavar="SCRIPT", help="the script's path; `-` is standard input")
    parser.add_argument("files", metavar="FILE", nargs="*", default=[], help="files that the script loads")
    parser.add_argument("--quiet", action="store_true", help="prints no notes: no line that begins with @")
    return parser.parse_intermixed_args()


class ReadFault(Exception):
    """A file that is not read. Its text is the file's path."""


def read(path: str, limit: int) -> bytes:
    """The first bytes of a file, up to one past the limit."""
    try:
        if path == "-":
            return sys.stdin.buffer.read(limit + 1)
        with open(path, "rb") as file:
            return file.read(limit + 1)
    except OSError:
        raise ReadFault(path) from None


def read_file(path: str) -> bytes:
    """A file that the script loads."""
    file = read(path, FILE_BYTES)
    if len(file) > FILE_BYTES:
        raise ReadFault(path)
    return file


def run(script: bytes, files: Sequence[bytes], quiet: bool) -> int:
    """Runs a script, and returns the status."""
    commands = assemble(script)
    with Session() as session:
        runner = Runner(session, files)
        for line in runner.run(commands):
            if not (quiet and line.startswith("@")):
                sys.stdout.write(line + "\n")
        return 0 if runner.is_met else 4


def main() -> int:
    given = words()
    try:
        files = [read_file(path) for path in given.files]
        script = read(given.script, SCRIPT_BYTES)
    except ReadFault as fault:
        print(f"read fault: {fault}", file=sys.stderr)
        return 3
    try:
        status = run(script, files, given.quiet)
    except ScriptFault as fault:
        print(fault.shown(), file=sys.stderr)
        status = 1
    except (Refused, MemoryError):
        print("out of memory", file=sys.stderr)
        status = 1
    except OSError:
        status = 3
    try:
        sys.stdout.close()
    except OSError:
        status = 3
    if status == 3:
        print("write fault", file=sys.stderr)
    return status


if __name__ == "__main__":
    sys.exit(main())
