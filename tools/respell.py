#!/usr/bin/env python3
"""Brings this repository's own names to today's spelling, once, after the kit's port.py, at the top of the repository.

A definition, lemma, record field, constructor or alias of specs/ and proofs/ whose name has a dash is spelled in snake
case, or in camel case if it begins with a capital letter. Names that Rattle makes (goals, steps, arms) and names of the
library keep theirs. Functions of src/, strings, comments, inputs and outputs are not touched.
It lists the names that look alike in one file afterwards, to be read by hand: a definition beside a function, a field of
src/ or a folder of the same name is none that falls together.
"""

import os
import re

WORD = r"[A-Za-z_][A-Za-z0-9_'→≤≡×-]*"
TOKEN = re.compile(r"(?<![A-Za-z0-9_'→≤≡×-])" + WORD)
LET = re.compile(r"\blet (" + WORD + r") (?=[=:])")
DECLARED = re.compile(r"^\s*(?:(?:abbrev|unfoldable|pub) )*(?:(?:record|data) )?(" + WORD + r")((?: [({][^\n]*[)}])*) :(?= |$)(.*)")
ALIAS = re.compile(r"(?<=[ {])(" + WORD + r") as (" + WORD + r")")
QUIET = re.compile(r'"(?:[^"\\\n]|\\.)*"|(?<!\S)--[^\n]*|//[^\n]*')
USE = re.compile(r"(?m)^\s*(?:ghost )?(?:pub )?use ([^\n;]*)")


def files(root):
    for folder, dirs, names in os.walk(os.path.join(root, "crates")):
        dirs[:] = sorted(d for d in dirs if d != "out")
        for name in sorted(names):
            if name.endswith((".antt", ".rt")):
                yield os.path.join(folder, name)


def read(path):
    with open(path, encoding="utf-8") as it:
        return it.read()


def blanked(text):
    return QUIET.sub(lambda m: " " * len(m[0]), text)


def own(crates, module):
    return any(module.startswith("Rattle." + c + ".") for c in crates)


# Names that would fall together with a variant of src/.
OTHERS = {"Too-many": "HasTooMany", "Wrong-name": "HasWrongName", "Not-rising": "IsNotRising", "No-room": "HasNoRoom"}


def turned(name):
    if name in OTHERS:
        return OTHERS[name]
    if name[0].isupper():
        return "".join(p[:1].upper() + p[1:] for p in name.split("-"))
    return name.replace("-", "_")


def declared(text):
    """The names with a dash that a file of specs/ or proofs/ declares, and those of them that are fields."""
    names, fields, inside = set(), set(), None
    for line in blanked(text).split("\n"):
        indent = len(line) - len(line.lstrip())
        if inside is not None and line.strip() and indent <= inside:
            inside = None
        m = DECLARED.match(line)
        if m and not m[3].strip().startswith("goal."):
            if "-" in m[1]:
                names.add(m[1])
                if inside is not None:
                    fields.add(m[1])
        names |= {w for w in LET.findall(line) if "-" in w}
        if re.match(r"^\s*(?:pub )?(?:record|data) ", line):
            inside = indent
    return names, fields


def aliases(text, crates):
    found = set()
    for m in USE.finditer(blanked(text)):
        found |= {a[2] for a in ALIAS.finditer(m[1]) if "-" in a[2]}
        tail = re.search(r" as (" + WORD + r")$", m[1].rstrip())
        if tail and "-" in tail[1]:
            found.add(tail[1])
    return found


def foreign(text, crates):
    """The names that a file takes from the library."""
    found = set()
    for m in USE.finditer(blanked(text)):
        module = m[1].split("{")[0].strip()
        if own(crates, module):
            continue
        for part in re.sub(r"^.*?\{|\}.*$", "", m[1]).split(","):
            found.add(part.split(" as ")[0].strip())
    return found


def turn(text, names, fields, kept):
    quiet = [(m.start(), m.end()) for m in QUIET.finditer(text)]
    out, at, k = [], 0, 0
    for m in TOKEN.finditer(text):
        while k < len(quiet) and quiet[k][1] <= m.start():
            k += 1
        if k < len(quiet) and quiet[k][0] <= m.start():
            continue
        word = m[0]
        if word not in names or word in kept:
            continue
        if text[m.start() - 1 : m.start()] == "." and word not in fields:
            before = re.search(r"(" + WORD + r")\.$", text[: m.start()])
            if not (before and before[1][0].isupper()):
                continue
        out += [text[at : m.start()], turned(word)]
        at = m.end()
    return "".join(out) + text[at:]


def main(root):
    crates = sorted(os.listdir(os.path.join(root, "crates")))
    texts = {p: read(p) for p in files(root)}
    names, fields = set(), set()
    for path, text in texts.items():
        if path.endswith(".antt"):
            n, f = declared(text)
            names |= n
            fields |= f
        names |= aliases(text, crates)
    for path, text in texts.items():
        kept = foreign(text, crates)
        for word in sorted(kept & names):
            print(f"look: {path}: {word} is also the library's")
        words = set(TOKEN.findall(blanked(text)))
        for word in sorted(words & names - kept):
            if turned(word) in words:
                print(f"look: {path}: {word} and {turned(word)}")
    for path, text in texts.items():
        new = turn(text, names, fields, foreign(text, crates))
        if new != text:
            with open(path, "w", encoding="utf-8") as it:
                it.write(new)
    print(f"{len(names)} names turned")
    return 0


if __name__ == "__main__":
    raise SystemExit(main("."))
