#!/usr/bin/env python3
"""Lists the lines of src/ in which older forms of the language may stand, a heading and a count for each kind of place.

    python3 tools/places.py [COMMIT]        a commit's files; by default the last commit's

docs/DESIGN-PASS.md rests on it. Which of the lines are places is read, not counted.
"""
import re
import subprocess
import sys
from collections import Counter

COMMIT = sys.argv[1] if len(sys.argv) > 1 else "HEAD"

LINES = [
    ("1 enums", r"^(pub |pub\(crate\) )?enum "),
    ("1 constants of numbers", r"^ *(pub |pub\(crate\) )?const [A-Z_]+: (u8|i8|u16|u32|usize) ="),
    ("1 flags", r"\b[a-z_]+: bool[,)]"),
    ("1 matches that hand on what they match",
     r"Err\(([a-z_]+)\) => (return )?Err\(\1\)|Ok\(([a-z]+)\) => Ok\(\3\)|Err\(_\) => |Some\(_?[a-z]*\) => |[^:]None => "),
    ("1 codes and numbers that a function answers", r"fn [a-z_]+(<[^>]*>)?\(.*\) -> (u8|i8|Option<u8>|Option<i8>)$"),
    ("3 loops", r"^ *('[a-z]+: )?(for|while|loop)\b"),
    ("3 counting by hand", r"(\+|-)= 1;|saturating_add\(1\)"),
    ("3 indexing", r"[a-z_)]\[[a-z_]+( as usize)?( [+-] 1)?\]"),
    ("4 impls of the common traits",
     r"^impl.*\b(From|TryFrom|Display|PartialEq|Eq|PartialOrd|Ord|TotalOrder|Clone|Copy|Default|Debug)\b"),
    ("4 arithmetic in the place of a conversion", r"% 256|/ 256|\* 256|256 \*|65536|>> 8|<< 8"),
    ("4 conversions by name",
     r"fn ([a-z]+_)?(number|code|status|bits|word|bytes|of|decode|address|flag|name|or_no|register|for)"
     r"(_of|_for|_at|_in|_byte)?(<[^>]*>)?\("),
    ("5 requires", r"requires( [a-z]+)? \{"),
    ("6 arrays, and vectors in a struct", r"^ *(pub |pub\(crate\) )?(const )?[A-Za-z_]+: (\[|Vec<)"),
    ("7 calls through a parameter", r"dyn |impl Fn|: Fn|fn\("),
]


def git(*words):
    return subprocess.run(["git", *words], capture_output=True, text=True, check=True).stdout


def show(heading, found):
    print(f"== {heading}: {len(found)}")
    for line in found:
        print(line)


def parameters(text, start):
    """The parameters of the function whose opening bracket is at start."""
    depth, count, word = 0, 0, ""
    for letter in text[start:]:
        if letter in "([<{":
            depth += 1
        elif letter in ")]>}":
            depth -= 1
            if depth == 0:
                break
        if letter == "," and depth == 1:
            count, word = count + 1, ""
        elif depth >= 1 and letter not in "(":
            word += letter
    return count + (1 if word.strip() else 0)


names = [n for n in git("ls-tree", "-r", "--name-only", COMMIT, "crates").split("\n") if n]
sources = {n: git("show", f"{COMMIT}:{n}") for n in names if re.fullmatch(r"crates/\w+/src/.*\.rt", n)}
proofs = {n: git("show", f"{COMMIT}:{n}") for n in names if re.fullmatch(r"crates/\w+/proofs/.*\.antt", n)}

for heading, pattern in LINES:
    show(heading, [f"{name}:{number}: {line.strip()}" for name, text in sources.items()
                   for number, line in enumerate(text.split("\n"), 1) if re.search(pattern, line)])

show("5 functions of four parameters and more",
     [f"{name}: {found.group(1)} ({count})" for name, text in sources.items()
      for found in re.finditer(r"\bfn (\w+)(?:<[^(]*>)?\(", text)
      if (count := parameters(text, found.end() - 1)) >= 4])

requires = Counter(re.sub(r"\s+", " ", fact) for text in sources.values()
                   for fact in re.findall(r"requires(?: [a-z]+)? \{ (.*) \}", text))
show("5 the same words required of three functions and more", [f"{n}: {fact}" for fact, n in requires.items() if n >= 3])

bodies = {}
for name, text in sources.items():
    for found in re.finditer(r"\bfn (\w+)[^;{]*?(?:\{ .*\}\s*)*\n( *)\{\n((?:.*\n)*?)\2\}", text):
        shape = re.sub(r"\b\d\w*\b", "N", re.sub(r"\b[A-Za-z_]\w*\b", "w", re.sub(r"\s+", "", found.group(3))))
        if len(shape) > 25:
            bodies.setdefault(shape, []).append(f"{name.split('/')[1]}::{found.group(1)}")
show("2 bodies of one shape", [", ".join(places) for places in bodies.values() if len(places) > 1])
spoken = Counter(found for text in sources.values() for found in re.findall(r"\bfn (\w+)", text))
show("2 one name in three places and more", [f"{n}: {name}" for name, n in spoken.items() if n >= 3])

for word in ("Answers", "Invariants"):
    show(f"8 {word}.antt", [n for n in proofs if n.endswith(f"/{word}.antt")])
show("8 lemmas and answers", [f"{n}: {lemma}" for n, text in proofs.items()
                              for lemma in re.findall(r"^(?:abbrev |unfoldable |pub )*([A-Za-z][\w'-]*) :", text, re.M)])
