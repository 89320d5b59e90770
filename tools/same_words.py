#!/usr/bin/env python3
"""Compares the definitions of crates/*/specs with those of an older text in other spelling, word by word.

usage: tools/same_words.py COMMIT

Import lines, comments and parentheses aside. Prints where a file has more or fewer words than at COMMIT, which words of
the older text stand as several of today's, and which of today's stand for several of the older text. All else stands
word for word, each as one word of today's wherever it stands."""
import collections
import difflib
import pathlib
import re
import subprocess
import sys

TOP = pathlib.Path(__file__).resolve().parent.parent
WORD = re.compile(r'[^\s(){}.;,@"«»\\]+|[{}.;,@]')
IMPORT = re.compile(r"\s*(?:pub )?use ")


def words(text):
    text = re.sub(r"(?m)--(?= |$).*$", "", text)
    text = "\n".join(line for line in text.split("\n") if not IMPORT.match(line))
    # A projection was written apart: `x .start` is `x.start`.
    return WORD.findall(re.sub(r" \.(?=\w)", ".", text))


def git(*arguments):
    return subprocess.run(["git", *arguments], cwd=TOP, check=True, capture_output=True, text=True).stdout


commit = sys.argv[1]
became, stands_for = collections.defaultdict(set), collections.defaultdict(set)
paths = re.findall(r"(?m)^crates/\w+/specs/.+\.antt$", git("ls-tree", "-r", "--name-only", commit, "crates"))
for path in paths:
    older, newer = words(git("show", f"{commit}:{path}")), words(TOP.joinpath(path).read_text())
    for tag, a, b, c, d in difflib.SequenceMatcher(None, older, newer, False).get_opcodes():
        if tag == "equal" or b - a == d - c:
            for old, new in zip(older[a:b], newer[c:d]):
                became[old].add(new)
                stands_for[new].add(old)
        else:
            print(f"{path}: {' '.join(older[max(a - 2, 0):b + 1])} is {' '.join(newer[max(c - 2, 0):d + 1])}")
for old, new in sorted(became.items()):
    if len(new) > 1:
        print(f"{old} is {', '.join(sorted(new))}")
for new, old in sorted(stands_for.items()):
    if len(old) > 1:
        print(f"{', '.join(sorted(old))}: both are {new}")
print(f"{len(paths)} files, {len(became)} words")
