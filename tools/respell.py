#!/usr/bin/env python3
"""Gives the repository's own definitions, lemmas, fields and variables of antt the spelling of today's Rattle.

usage: tools/respell.py [--list]

Run once at the top, after the kit's own script. Words are joined by `_`; types and modules keep their capitals.
Names of src/, of exported C functions and of the libraries stay. --list prints the names and changes nothing.
"""
import glob
import re
import sys

NAME = r'[^\s(){}.;,@"«»\\]+'
HEAD = r"(?m)^ *(?:(?:abbrev|unfoldable|pub|open|data|record|let) +)*(" + NAME + r")((?: +(?:" + NAME + r"|\([^()]*\)|\{[^{}]*\}))*?) :(?=\s)"
CONSTRUCTOR = r"(?m)^ *\| *(" + NAME + r") :(?=\s)"
USE = re.compile(r"(?ms)^ *(?:pub )?use ([^\s{]+?)(?:\.\{(.*?)\}| as (\S+))?$")
TIE = re.compile(r"(?ms)^(\S+) : tie\.Need.*?(?=^\S+ : |^pub |^module|\Z)")
OWN = set()


def code_of(text):
    return re.sub(r"--(?= |$)[^\n]*", "", text, flags=re.M)


def snake(name):
    if not (name[0].islower() or name[0] in "₀₁₂"):
        return name
    if not re.fullmatch(r"[\w'⁻¹₀-₉-]+", name):
        return name
    name = re.sub(r"(?<=[a-z0-9])([A-Z])", lambda m: "_" + m[1].lower(), name)
    return re.sub(r"(?<=\w)-(?=\w)", "_", name)


def imported(text):
    """The names that a file takes from elsewhere than the repository."""
    names = set()
    for path, braces, _ in USE.findall(code_of(text)):
        steps = path.split(".")
        if steps[0] == "Rattle" and len(steps) > 1 and steps[1] in OWN and "declared" not in steps:
            continue
        for part in (braces or "").split(","):
            part = part.strip()
            if part:
                names.add(part.split(" as ")[-1].strip())
                names.add(part.split(" as ")[0].strip())
    return names


def main():
    OWN.update(line.split(":")[0].split()[0] for line in open("crates.txt") if line[0] != "#" and line.strip())
    files = sorted(f for f in glob.glob("crates/**/*.antt", recursive=True) if "/out/" not in f)
    texts = {f: open(f, encoding="utf-8").read() for f in files}
    declared, bare = {}, set()
    for f, text in texts.items():
        code = code_of(text)
        answers = set(TIE.findall(code)) if f.endswith("/Proof.antt") else set()
        for m in list(re.finditer(HEAD, code)) + list(re.finditer(CONSTRUCTOR, code)):
            if m[1] not in answers:
                declared.setdefault(m[1], set()).add(f)
        bare.update(re.findall(NAME, code))
    taken = set()
    for text in texts.values():
        taken |= imported(text)
    renamed, back = {}, {}
    for name in sorted(declared, key=lambda n: ("-" in n, n)):
        new = snake(name)
        if new == name:
            continue
        # A lemma that would have the name of what it is about is told apart, as the library does it.
        while new in back or new in taken or ("-" in name and new in declared):
            new += "_lem" if not new.endswith("_lem") else "_too"
        renamed[name], back[new] = new, name
    if sys.argv[1:] == ["--list"]:
        for name, new in renamed.items():
            print(name, new, *(["MET"] if new in bare else []))
        return
    antt = re.compile(r'(?<![^\s(){}.;,@"«»\\])(' + NAME + ")")
    for f, text in texts.items():
        theirs = imported(text)
        lines = text.split("\n")
        out = []
        for line in lines:
            code, dash, comment = line, "", ""
            m = re.search(r"(?:^|(?<=\s))--(?= |$)", line)
            if m:
                code, comment = line[: m.start()], line[m.start() :]

            def turn(m):
                name = m[1]
                return renamed.get(name, name) if name not in theirs else name

            if not re.match(r" *\S+ : tie\.Need", code):
                code = antt.sub(turn, code)
            comment = re.sub(r"`([^`]*)`", lambda m: "`" + antt.sub(turn, m[1]) + "`", comment)
            out.append(code + comment)
        if "\n".join(out) != text:
            open(f, "w", encoding="utf-8").write("\n".join(out))
    camel = {n: v for n, v in renamed.items() if "-" not in n}
    word = re.compile(r"(?<![\w'-])([a-z][\w']*)(?![\w'-])")
    others = [f for f in glob.glob("crates/**/*.rt", recursive=True) + glob.glob("crates/*/must-fail/*.edit") if "/out/" not in f]
    for f in sorted(others):
        text = open(f, encoding="utf-8").read()
        # What a program prints stays.
        new = re.sub(r'"(?:[^"\\\n]|\\.)*"|[^"]+', lambda m: m[0] if m[0][0] == '"' else word.sub(lambda n: camel.get(n[1], n[1]), m[0]), text)
        if new != text:
            open(f, "w", encoding="utf-8").write(new)
    for f in ["README.md"] + sorted(glob.glob("docs/**/*.md", recursive=True)):
        text = open(f, encoding="utf-8").read()
        new = re.sub(r"`[^`\n]*`", lambda m: "`" + antt.sub(lambda n: renamed.get(n[1], n[1]), m[0][1:-1]) + "`", text)
        if new != text:
            open(f, "w", encoding="utf-8").write(new)


main()
