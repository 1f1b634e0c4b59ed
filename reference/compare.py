#!/usr/bin/env python3
"""Compares a bench with the reference: compare.py BENCH [--seeds N] [SCRIPT..].

Runs the program BENCH and the reference on the scripts given and on N generated ones, seeds 0 to N-1. Standard output
has to agree byte for byte, the exit status has to agree, and so has the line number of an error. A script that makes heads
is run again with none, one and two packet links over all its heads, and has to give the same transcript each time. The last
line printed says how many scripts and how many lines of standard output agree. The status is 0 if all agree and 1 if not;
it is 1 as well if there was too little to compare for the run to mean anything.
"""

from __future__ import annotations

import argparse
import io
import os
import subprocess
import sys
from concurrent.futures import ThreadPoolExecutor
from itertools import zip_longest
from typing import Iterable, Iterator, NamedTuple, Optional

import bench
from generate import generate
from script import FieldError, ScriptError, parse_number, split_fields, without_ending

DEFAULT_SEEDS = 1600
FEWEST_LINES = 100_000
"""How many lines have to be compared, at least, with the default seeds or more."""
LONGEST_RUN = 20
"""How many seconds the program may take for a script."""
MOST_SHOWN = 5
"""How many differences are shown."""
WIDEST_SHOWN = 200
"""How many characters of a line are shown."""
NEWLINE = b"\n"


class Script(NamedTuple):
    """A script to compare on, and what to call it."""

    name: str
    text: bytes


class Expected(NamedTuple):
    """What the reference does with a script."""

    answers: list[bench.Answer]
    error: Optional[ScriptError]

    def output(self) -> bytes:
        """Standard output."""
        return "".join(answer.text + "\n" for answer in self.answers).encode("ascii")

    def status(self) -> int:
        """The exit status."""
        return 0 if self.error is None else 1


class Observed(NamedTuple):
    """What the program did with a script. It has no status if it was stopped for taking too long."""

    output: bytes
    errors: bytes
    status: Optional[int]


def run_reference(text: bytes) -> Expected:
    """Runs the reference, in this process."""
    answers: list[bench.Answer] = []
    try:
        for answer in bench.run(io.BytesIO(text)):
            answers.append(answer)
    except ScriptError as error:
        return Expected(answers, error)
    return Expected(answers, None)


def run_program(program: str, text: bytes) -> Observed:
    """Runs the program."""
    try:
        done = subprocess.run([program], input=text, capture_output=True, timeout=LONGEST_RUN, check=False)
    except subprocess.TimeoutExpired as stopped:
        return Observed(stopped.stdout or b"", stopped.stderr or b"", None)
    return Observed(done.stdout, done.stderr, done.returncode)


def shown(line: Optional[bytes], skipped: int = 0) -> str:
    """A line as it is shown in a difference, in ASCII. Its front can be left out, and long ones are cut."""
    if line is None:
        return "(no line)"
    text = ".." * (skipped > 0) + ascii(line[skipped:])[2:-1]
    return text if len(text) <= WIDEST_SHOWN else text[:WIDEST_SHOWN] + ".."


def script_line(text: bytes, number: int) -> str:
    """A line of the script, by its number, as it is shown in a difference."""
    return f"line {number}: {shown(text.split(NEWLINE)[number - 1])}"


def common_length(one: bytes, other: bytes) -> int:
    """How many bytes two lines have in common at their fronts."""
    return len(os.path.commonprefix([one, other]))


def output_difference(text: bytes, expected: Expected, observed: Observed) -> Optional[str]:
    """The first line of standard output that differs, or nothing."""
    if observed.output == expected.output():
        return None
    pairs = zip_longest(io.BytesIO(observed.output), io.BytesIO(expected.output()))
    place, (was, should) = next((place, pair) for place, pair in enumerate(pairs) if pair[0] != pair[1])
    if place < len(expected.answers):
        where = script_line(text, expected.answers[place].line)
    else:
        where = "behind the last line of the reference"
    skipped = max(0, common_length(was or b"", should or b"") - WIDEST_SHOWN // 2)
    both = f"  bench:     {shown(was, skipped)}\n  reference: {shown(should, skipped)}"
    return f"output line {place + 1}, {where}\n{both}"


def end_difference(text: bytes, expected: Expected, observed: Observed) -> Optional[str]:
    """How the ends of the runs differ, in status or in the line of the error, or nothing."""
    start = b"" if expected.error is None else b"error: line %d:" % expected.error.line
    if observed.status == expected.status() and observed.errors.startswith(start):
        return None
    where = "end of the run" if expected.error is None else script_line(text, expected.error.line)
    was = "stopped, it took too long" if observed.status is None else f"status {observed.status}"
    should = f"status {expected.status()}" + ("" if expected.error is None else f", error: {expected.error}")
    return f"{where}\n  bench:     {was}, {shown(observed.errors.split(NEWLINE)[0])}\n  reference: {should}"


def difference(script: Script, expected: Expected, observed: Observed) -> Optional[str]:
    """The first difference between the two runs of a script, or nothing."""
    found = output_difference(script.text, expected, observed) or end_difference(script.text, expected, observed)
    return None if found is None else f"{script.name}, {found}"


# Links


def sets_links(line: bytes) -> bool:
    """Whether a line is a directive on links, and a right one."""
    if b"links" not in line:
        return False
    try:
        fields = split_fields(without_ending(line))
        return fields[:1] == ["links"] and len(fields) == 2 and parse_number(fields[1], bench.MOST_LINKS, "links") >= 0
    except FieldError:
        return False


def over_links(script: Script, count: int) -> Script:
    """The script with so many links over all its heads. It has one line more, in front."""
    setting = b"links %d\n" % count
    lines = [setting if sets_links(line) else line for line in io.BytesIO(script.text)]
    return Script(f"{script.name} over {count} links", setting + b"".join(lines))


def one_line_later(expected: Expected) -> Expected:
    """The same of a script that has one line more in front, which answers nothing."""
    error = expected.error
    answers = [bench.Answer(line + 1, text) for line, text in expected.answers]
    return Expected(answers, error if error is None else error.one_line_later())


def with_links(script: Script) -> list[Script]:
    """The script as it is, and with every number of links, if it makes heads."""
    counts = range(bench.MOST_LINKS + 1) if b"make" in script.text else []
    return [script, *(over_links(script, count) for count in counts)]


class Tally:
    """What has been compared so far."""

    def __init__(self) -> None:
        self.scripts = 0
        self.lines = 0
        self.differences: list[str] = []

    def add(self, script: Script, expected: Expected, observed: Observed) -> None:
        """Compares two runs of a script."""
        self.lines += min(len(expected.answers), observed.output.count(NEWLINE))
        found = difference(script, expected, observed)
        if found is not None:
            self.differences.append(found)

    def report(self, fewest_lines: int) -> int:
        """Prints what came out and gives the exit status."""
        for found in self.differences[:MOST_SHOWN]:
            print(found)
        counted = f"reference: {self.scripts} scripts, {self.lines} lines"
        if self.differences:
            print(f"{counted}, {len(self.differences)} scripts differ")
        elif self.lines < fewest_lines:
            print(f"{counted}, too few to mean anything: {fewest_lines} lines are wanted")
        else:
            print(f"{counted}, all agree")
            return 0
        return 1


def generated(seeds: int) -> Iterator[Script]:
    """The generated scripts."""
    for seed in range(seeds):
        yield Script(f"seed {seed}", generate(seed))


def from_files(paths: Iterable[str]) -> Iterator[Script]:
    """The scripts in files."""
    for path in paths:
        with open(path, "rb") as file:
            yield Script(path, file.read())


def compare(program: str, scripts: Iterable[Script]) -> Tally:
    """Compares on all the scripts. The program runs in processes of its own, beside the reference."""
    tally = Tally()
    with ThreadPoolExecutor(os.cpu_count()) as executor:
        runs = [
            (script, [(run, executor.submit(run_program, program, run.text)) for run in with_links(script)])
            for script in scripts
        ]
        for script, (as_it_is, *linked) in runs:
            expected = run_reference(script.text)
            later = one_line_later(expected)
            tally.scripts += 1
            tally.add(script, expected, as_it_is[1].result())
            for variant, run in linked:
                tally.add(variant, later, run.result())
    return tally


def seeds_argument(text: str) -> int:
    """How many seeds to take."""
    seeds = int(text)
    if seeds < 0:
        raise ValueError("fewer than none")
    return seeds


def main() -> int:
    """Compares as the command line says and gives the exit status."""
    parser = argparse.ArgumentParser(description="Compares a bench with the reference.")
    parser.add_argument("bench", metavar="BENCH", help="the program to compare with the reference")
    parser.add_argument("--seeds", metavar="N", type=seeds_argument, default=DEFAULT_SEEDS,
                        help=f"how many generated scripts to compare on, {DEFAULT_SEEDS} if not given")
    parser.add_argument("scripts", metavar="SCRIPT", nargs="*", help="a script to compare on")
    arguments = parser.parse_intermixed_args()
    try:
        scripts = [*from_files(arguments.scripts), *generated(arguments.seeds)]
        tally = compare(os.path.abspath(arguments.bench), scripts)
    except OSError as error:
        print(f"error: {error}", file=sys.stderr)
        return 1
    return tally.report(FEWEST_LINES if arguments.seeds >= DEFAULT_SEEDS else 1)


if __name__ == "__main__":
    sys.exit(main())
