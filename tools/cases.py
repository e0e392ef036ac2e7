#!/usr/bin/env python3
"""Writes the standard input of the program `cases` and what it has to print.

    tools/cases.py VECTORS

The argument is a folder of vectors from an independent model: policies.jsonl, stores.jsonl, books.jsonl, one JSON
object a line, and programs/ with an input and an output of the program for each case. Beside the vectors come cases
that are worked out by hand from the rules. Nothing here is taken from what the product prints.
"""
import glob
import json
import os
import sys

import text_cases

FOLDER = os.path.join(os.path.dirname(os.path.abspath(__file__)), "..", "crates", "cases")


def refused(answer):
    return f"refused {answer['refused']} layer {answer['layer']} place {answer['place']}"


def read_rows(path):
    with open(path, encoding="ascii") as file:
        yield from map(json.loads, file)


def ended(step):
    """Low, high and the memory after a step."""
    return f" low {step['low']} high {step['high']} memory {step['memory']}"


# -- texts ---------------------------------------------------------------------------------------------------------

def texts(folder):
    for text, want in text_cases.cases(os.path.join(folder, "policies.jsonl")):
        yield "text " + text.hex(), [want]


# -- row stores ----------------------------------------------------------------------------------------------------

def table_answer(step):
    answer = step["answer"]
    if answer is None:
        return "done"
    return answer if isinstance(answer, str) else refused(answer)


def table_case(row):
    head = f"table {row['store']} {row['width']} {row['memory_length']}"
    if "making" in row:
        return head, [refused(row["making"])]
    calls = "".join(";" + " ".join(map(str, step["call"])) for step in row["steps"])
    made = {"low": 1, "high": 0, "memory": "00" * row["memory_length"]}
    rows = [f"limit {row['limit']}" + ended(made)] + [table_answer(step) + ended(step) for step in row["steps"]]
    return head + calls, rows


def limits():
    """The limits of both tables, at their edges."""
    unfit = "refused 12 layer 5 place 0"
    for kind, head in [("row", 0), ("stretch", 8)]:
        for width, size, limit in [
            (25, 2 * (25 + head), 2), (25, 2 * (25 + head) - 1, None), (25, 3 * (25 + head) - 1, 2), (3, 1000, None), (4, 2 * (4 + head), 2),
            (289, 2 * (289 + head), 2), (290, 2000, None), (0, 100, None), (4, 4096 * (4 + head), 4096), (4, 4098 * (4 + head) + 1, 4096),
        ]:
            made = {"low": 1, "high": 0, "memory": "00" * size}
            yield f"table {kind} {width} {size}", [unfit if limit is None else f"limit {limit}" + ended(made)]


def tables(folder):
    for row in read_rows(os.path.join(folder, "stores.jsonl")):
        yield table_case(row)
    yield from limits()


# -- books ---------------------------------------------------------------------------------------------------------

def book_call(call):
    """The name, a run, a line and codes, with 0 or nothing for what the call has not."""
    name, *rest = call
    run = rest[0] if name in ("report", "preview", "close", "truth") else 0
    line = rest[1] if name == "truth" else 0
    codes = rest[-1] if name in ("start", "report", "preview") else []
    return f"{name} {run} {line} {bytes(codes).hex()}"


def book_answer(step):
    answer = step["answer"]
    if isinstance(answer, dict):
        return refused(answer)
    name = step["call"][0]
    if name == "report":
        return f"changed {answer[0]} verdict {answer[1]}"
    return {"start": "started", "preview": "would", "close": "gone", "verdict": "verdict", "truth": "truth"}[name] + f" {answer}"


def book_case(row):
    calls = "".join(";" + book_call(step["call"]) for step in row["steps"])
    answers = [book_answer(step) for step in row["steps"]]
    rows = [answer + ended(step) for answer, step in zip(answers, row["steps"])]
    # all answers again, from the call that performs a list, and the memory at its end
    rows.append("".join(answer + ", " for answer in answers) + ended(row["steps"][-1]))
    return f"book {row['scale']} {row['store']} {row['memory_length']} {row['text']}{calls}", rows


def worked(text, scale, store, size, steps):
    """A case worked out by hand: each step is a call, its answer, low, high and the memory."""
    keys = ("call", "answer", "low", "high", "memory")
    return book_case({"text": text.encode().hex(), "scale": scale, "store": store, "memory_length": size,
                      "steps": [dict(zip(keys, step)) for step in steps]})


def worked_books():
    """Policy B: two starts are one entry of a stretch table, and a store of limit 2 is full until its runs are gone."""
    policy = "atoms p; rule YL YG p."
    one, none = "0100000000000000", "00" * 8
    first, both = "0000000100000001" + one + "00" * 16, "0000000100000002" + one + "00" * 16
    yield worked(policy, "plain", "stretch", 32, [(["start", [0]], 1, 1, 1, first), (["start", [0]], 2, 1, 2, both)])
    full = {"refused": 24, "layer": 5, "place": 2}
    closed = none
    yield worked(policy, "plain", "row", 16, [
        (["verdict"], {"refused": 26, "layer": 4, "place": 0}, 1, 0, none + none),
        (["start", [0]], 1, 1, 1, one + none),
        (["start", [0]], 2, 1, 2, one + one),
        (["start", [0]], full, 1, 2, one + one),
        (["close", 1], 0, 1, 2, closed + one),
        (["start", [0]], full, 1, 2, closed + one),
        (["close", 2], 1, 2, 2, none + closed),
        (["start", [0]], 3, 2, 3, one + closed),
        (["report", 1, [0]], {"refused": 23, "layer": 4, "place": 1}, 2, 3, one + closed),
        (["truth", 1, 0], {"refused": 27, "layer": 4, "place": 1}, 2, 3, one + closed),
        (["truth", 3, 3], {"refused": 28, "layer": 4, "place": 3}, 2, 3, one + closed),
        (["start", []], {"refused": 20, "layer": 4, "place": 0}, 2, 3, one + closed),
        (["start", [2]], {"refused": 21, "layer": 4, "place": 0}, 2, 3, one + closed),
    ])


def books(folder):
    for row in read_rows(os.path.join(folder, "books.jsonl")):
        yield book_case(row)
    yield from worked_books()


# -- inputs of the program -----------------------------------------------------------------------------------------

def inputs(folder):
    for path in sorted(glob.glob(os.path.join(folder, "programs", "*.in"))):
        with open(path, "rb") as file:
            given = file.read()
        with open(path[:-3] + ".out", encoding="ascii") as file:
            yield "input " + given.hex(), file.read().splitlines()


def main():
    if len(sys.argv) != 2:
        sys.exit(__doc__)
    listed = [case for group in (texts, tables, books, inputs) for case in group(sys.argv[1])]
    with open(os.path.join(FOLDER, "stdin"), "w", encoding="ascii") as file:
        file.write("".join(line + "\n" for line, _ in listed))
    with open(os.path.join(FOLDER, "stdout"), "w", encoding="ascii") as file:
        file.write("".join(row + "\n" for _, rows in listed for row in rows))
    print(f"{len(listed)} cases")


if __name__ == "__main__":
    main()
