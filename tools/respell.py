#!/usr/bin/env python3
"""Brings the repository's own definitions and lemmas to the spelling of the kit.

usage: python3 tools/respell.py        at the top of the repository, once, after the kit's port.py

Words are in snake case, types and facts in camel case: `left-of` becomes `left_of`, `Fills-up` becomes `FillsUp`.
A name is the repository's own if a file of specs/ or proofs/ declares it, or binds it in a lemma. Names that a file
imports from a library keep their spelling, and so do names that the check makes, which only stand in proofs/F/.
Code, strings and inputs are left alone; in comments and pages only names between backticks are turned.
"""

import collections
import glob
import re
import sys

# Names that would fall together with a field or a ghost member of the code.
OTHERWISE = {
    "is-answer": "is_answer_source",  # `is_answer` is a field of an eligible offer
    "to-request": "offered_to",  # `to_request` is a ghost member of an answer
    "better-first": "better_is_first",  # `better_first` is a ghost member of a priced ranking
}

DECLARED = re.compile(r"^(\s*)((?:abbrev |unfoldable |pub |mutual )*)(?:data |record )?([^\s:(){}]+)\s*(?:[({].*)?\s:(\s|$)")
NAME = re.compile(r"(?<![^\s(){};,.:@\[\]|\"`←¬])[A-Za-z][^\s(){};,.:@\[\]|\"`]*-[^\s(){};,.:@\[\]|\"`]*")


def crates():
    return sorted(p.split("/")[1] for p in glob.glob("crates/*/"))


def turned(name):
    if name in OTHERWISE:
        return OTHERWISE[name]
    if name[0].isupper():
        return "".join(part[0].upper() + part[1:] for part in name.split("-"))
    return re.sub(r"([a-z])([A-Z])", lambda m: m.group(1) + "_" + m.group(2).lower(), name).replace("-", "_")


def read(path):
    with open(path, encoding="utf-8") as f:
        return f.read()


def shared():
    return sorted(glob.glob("crates/*/specs/*.antt") + glob.glob("crates/*/proofs/*.antt"))


def answers():
    return sorted(p for p in glob.glob("crates/*/proofs/*/**/*.antt", recursive=True))


def sources():
    return sorted(glob.glob("crates/*/src/**/*.rt", recursive=True))


def imported(text, ours):
    """What the lines of a file import from libraries."""
    library = re.compile(r"^\s*(?:pub )?(?:ghost )?use (?!Rattle\.(?:%s)\.)[^;\n]*" % "|".join(ours), re.M)
    return {n for line in library.findall(text) for n in NAME.findall(line)}


def code(line):
    return line.split("--")[0] if line.lstrip().startswith("--") or " -- " in line else line


def own(ours):
    """The names that files of specs/ and proofs/ declare or bind."""
    names = set()
    for path in shared():
        text = read(path)
        from_libraries = imported(text, ours)
        for line in text.splitlines():
            names |= {n for n in NAME.findall(code(line)) if n not in from_libraries}
    return names


def turn(text, names):
    return NAME.sub(lambda m: turned(m.group(0)) if m.group(0) in names else m.group(0), text)


def in_backticks(text, names):
    return re.sub(r"`[^`\n]*`", lambda m: turn(m.group(0), names), text)


def turn_file(path, names, comment):
    text = read(path)
    lines = []
    for line in text.split("\n"):
        at = 0 if line.lstrip().startswith(comment) else line.find(" " + comment + " ")
        front, back = (line, "") if at < 0 else (line[:at], line[at:])
        if comment == "//":
            # a string of the code keeps its text
            front = "".join(part if part.startswith('"') else turn(part, names) for part in re.split(r'("(?:[^"\\]|\\.)*")', front))
        else:
            front = turn(front, names)
        lines.append(front + in_backticks(back, names))
    new = "\n".join(lines)
    if new != text:
        with open(path, "w", encoding="utf-8") as f:
            f.write(new)
    return new != text


def main():
    ours = crates()
    names = own(ours)
    fall_together = collections.defaultdict(set)
    for n in names:
        fall_together[turned(n)].add(n)
    for new, olds in sorted(fall_together.items()):
        if len(olds) > 1:
            print(f"look: {', '.join(sorted(olds))} are all {new} now")
    changed = 0
    for path in shared() + answers():
        text = read(path)
        changed += turn_file(path, names - imported(text, ours), "--")
    for path in sources():
        changed += turn_file(path, names - imported(read(path), ours), "//")
    for path in ["README.md"] + sorted(glob.glob("docs/*.md")):
        text = read(path)
        new = in_backticks(text, names)
        if new != text:
            with open(path, "w", encoding="utf-8") as f:
                f.write(new)
            changed += 1
    print(f"respell: {len(names)} names, {changed} files changed")
    return 0


if __name__ == "__main__":
    sys.exit(main())
