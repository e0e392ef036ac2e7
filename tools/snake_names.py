#!/usr/bin/env python3
"""Spells the repository's own definitions and lemmas as today's Rattle does: words in snake case, types in camel case.

    tools/snake_names.py [FOLDER]        once, after port.py, at the top of the repository (or in FOLDER)

It turns names that specs/ and proofs/ of the crates declare, and names that a `use` line gives by `as`: `next-sign`
becomes `next_sign`, the type `Reads-right` becomes `ReadsRight`. Names of libraries and labels that Rattle makes stay.
In comments, and in README and docs/, a name is turned where it stands between backticks. Nothing is written where two
names of a file would fall together: then the script says which.
"""
import os
import re
import sys

NAME = r"[^\s(){}.;,@\"«»:]+"
HEAD = r"^[ \t]*(?:(?:abbrev|unfoldable|pub|data|record|infix[lr]? \d+) )*"
DECLARED = re.compile(HEAD + rf"({NAME})((?: [^\n=λ:]*?)?(?: \([^\n]*?\))*)[ \t]:[ \t]([^\n]*)$", re.M)
RECORD = re.compile(rf"^[ \t]*(?:pub )?(?:data|record) ({NAME})", re.M)
PARAMETER = re.compile(rf"\b({NAME}) as ({NAME})")
GOAL_FILE = ("Answers.antt", "Invariants.antt", "Proof.antt")
SKIPPED = ("out", ".git", "target")


def walk(top, folder, endings):
    for place, folders, files in os.walk(os.path.join(top, folder)):
        folders[:] = sorted(f for f in folders if f not in SKIPPED)
        for name in sorted(files):
            if name.endswith(endings):
                yield os.path.join(place, name)


def read(path):
    with open(path, encoding="utf-8") as file:
        return file.read()


def odd(name):
    return "-" in name.strip("-") and re.match(r"[^\W\d]", name) is not None and "◌" not in name


def declared(top):
    """The names that the crates declare and that are not in today's spelling, with whether each is a type."""
    names = {}
    for path in walk(top, "crates", (".antt",)):
        text = re.sub(r"--.*", "", read(path))
        for found in RECORD.finditer(text):
            if odd(found.group(1)):
                names[found.group(1)] = True
        for found in DECLARED.finditer(text):
            name, rest = found.group(1), found.group(3).strip()
            if not odd(name) or rest.startswith("goal."):
                continue
            is_type = name[0].isupper() and re.search(r"Type 0$", rest) is not None
            names[name] = names.get(name, False) or is_type
    for path in walk(top, "crates", (".antt", ".rt")):
        for line in read(path).splitlines():
            if re.match(r"\s*(?:pub )?(?:ghost )?use ", line):
                for found in PARAMETER.finditer(line):
                    if odd(found.group(2)):
                        names.setdefault(found.group(2), False)
    return names


def turned(name, is_type):
    name = name.replace("getD", "get_or")
    if is_type:
        return "".join(word[0].upper() + word[1:] for word in name.split("-"))
    name = re.sub(r"-([A-Z])$", lambda m: "-" + m.group(1).lower(), name)
    return name.replace("-", "_")


def turn_code(text, table, labels):
    def put(found):
        word = found.group(0)
        if labels and text[: found.start()].endswith("goal."):
            return word
        return table.get(word, word)

    pieces = re.split(r'("(?:[^"\\\n]|\\.)*")', text)
    for i in range(0, len(pieces), 2):
        text = pieces[i]
        pieces[i] = re.sub(NAME, put, text)
    return "".join(pieces)


def turn_quoted(text, table):
    return re.sub(r"`[^`\n]*`", lambda m: turn_code(m.group(0).strip("`"), table, False).join("``"), text)


def turn_lines(text, table, mark, labels):
    lines = []
    for line in text.split("\n"):
        at = re.search(rf'^(?:[^"]|"(?:[^"\\]|\\.)*")*?({re.escape(mark)})', line)
        cut = at.start(1) if at else len(line)
        lines.append(turn_code(line[:cut], table, labels) + turn_quoted(line[cut:], table))
    return "\n".join(lines)


def goal_labels(text):
    return {m.group(1) for m in re.finditer(rf"^\s*(?:abbrev )?(?:pub )?({NAME}) : goal\.", text, re.M)}


def main():
    top = sys.argv[1] if len(sys.argv) > 1 else "."
    names = declared(top)
    table = {name: turned(name, is_type) for name, is_type in names.items()}
    together = {}
    for old, new in table.items():
        together.setdefault(new, []).append(old)
    clashes = [olds for olds in together.values() if len(olds) > 1]
    # a path may have the name of what it leads to, and a definition that of the function that it is for
    functions = {n for path in walk(top, "crates", (".rt",)) for n in re.findall(r"\bfn (\w+)", read(path))}
    changed = {}
    for path in walk(top, "crates", (".antt", ".rt", ".edit")):
        text = read(path)
        labels = os.path.basename(path) in GOAL_FILE
        here = table
        if labels:
            here = {old: new for old, new in table.items() if old not in goal_labels(text)}
        if path.endswith(".edit"):
            after = turn_code(text, here, False)
        else:
            after = turn_lines(text, here, "--" if path.endswith(".antt") else "//", labels)
        words = set(re.findall(NAME, text))
        kept = set(re.findall(NAME, re.sub(r"Rattle(?:\.[\w-]+)+", "", text))) - functions
        for old, new in here.items():
            if old in words and new in kept:
                clashes.append([path, old, new])
        changed[path] = (text, after)
    for path in list(walk(top, "docs", (".md",))) + [os.path.join(top, "README.md")]:
        if os.path.exists(path):
            text = read(path)
            changed[path] = (text, turn_quoted(text, table))
    if clashes:
        for clash in clashes:
            print("together:", *clash)
        sys.exit(1)
    count = 0
    for path, (before, after) in changed.items():
        if before != after:
            count += 1
            with open(path, "w", encoding="utf-8") as file:
                file.write(after)
    print(f"{len(table)} names, {count} files")


if __name__ == "__main__":
    main()
