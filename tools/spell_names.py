#!/usr/bin/env python3
"""Respells this repository's own definitions and lemmas: spell_names.py, at the top of the repository, after port.py.

A dash in a name of ours joined the words of the name. Facts and types become upper camel case, all else snake case:
Sets-change-one is SetsChangeOne, register-at is register_at. The library's names and those of generated goals keep their
dashes. Comments and strings are left alone. It stops if two names of one tree would become one.
"""
import pathlib
import re
import sys

ROOT = pathlib.Path("crates")
WORD = r"[A-Za-z][\w'₀-₉]*"
DASHED = re.compile(rf"(?<![\w'◌.-])({WORD}(?:-[\w'₀-₉]+)+)(?![\w'-])|(?<=[.])({WORD}(?:-[\w'₀-₉]+)+)(?![\w'-])")
DECLARES = re.compile(rf"\s*(?:(?:pub|abbrev|unfoldable|data|record) )*({WORD}(?:-[\w'₀-₉]+)+) :(.*)")
HOLDS = re.compile(rf"\s*(?:pub )?(?:data|record) ({WORD}(?:-[\w'₀-₉]+)+)")
# names of variables, which no signature declares
VARIABLES = """after-restore at-end at-save at-two before-restore fault-is is-k is-l is-owed is-p is-register is-restore is-s
is-save is-t no-get on-err on-ok restore-word restored-now room-there save-word saved-now taken-up zero-code""".split()


def split_comment(path, line):
    """The code of a line, and the comment behind it."""
    mark = "//" if path.suffix == ".rt" else "--"
    at = -1
    for m in re.finditer(re.escape(mark), line):
        before = line[: m.start()]
        if before.count('"') % 2 == 0 and (mark == "//" or before == "" or before[-1].isspace()):
            at = m.start()
            break
    return (line, "") if at < 0 else (line[:at], line[at:])


def spelled(name):
    words = name.split("-")
    if name[0].isupper():
        return "".join(w[0].upper() + w[1:] for w in words)
    return "_".join(words)


def main():
    files = [p for p in sorted(ROOT.rglob("*")) if p.suffix in (".rt", ".antt") and "out" not in p.parts]
    own, plain = set(VARIABLES), set()
    for path in files:
        for line in path.read_text(encoding="utf-8").splitlines():
            code, _ = split_comment(path, line)
            plain.update(re.findall(r"(?<![\w'-])[A-Za-z]\w*(?![\w'-])", code))
            if path.suffix == ".antt":
                m = DECLARES.match(code)
                if m and not re.match(r"\s*(goal|need|the-goal)\.", m.group(2)):
                    own.add(m.group(1))
                m = HOLDS.match(code)
                if m:
                    own.add(m.group(1))
    new = {}
    for name in sorted(own):
        if spelled(name) in new.values():
            sys.exit(f"two names become {spelled(name)}")
        new[name] = spelled(name)
    met = sorted(v for v in new.values() if v in plain)
    print(len(new), "names; already words of the tree:", ", ".join(met))
    left = set()

    def turn(m):
        name = m.group(1) or m.group(2)
        if name in new:
            return new[name]
        left.add(name)
        return name

    for path in files:
        lines = []
        for line in path.read_text(encoding="utf-8").split("\n"):
            code, comment = split_comment(path, line)
            parts = re.split(r'("(?:[^"\\]|\\.)*")', code)
            lines.append("".join(p if i % 2 else DASHED.sub(turn, p) for i, p in enumerate(parts)) + comment)
        path.write_text("\n".join(lines), encoding="utf-8")
    print("left:", ", ".join(sorted(left)))


main()
