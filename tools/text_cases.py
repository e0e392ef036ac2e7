#!/usr/bin/env python3
"""Writes the standard input of the program text_cases and what it has to print.

    tools/text_cases.py POLICIES.jsonl

The argument is a file of vectors from an independent model, one JSON object a line: "text" in hexadecimal, and
"atoms" and "lines", or "refused", "layer" and "place". Behind the vectors come the cases of this script, whose
results are worked out by hand from the rules of policy texts. Nothing here is taken from what the product prints.
"""
import json
import os
import sys

FOLDER = os.path.join(os.path.dirname(os.path.abspath(__file__)), "..", "crates", "text_cases")
LAYERS = {1: 1, 2: 1, 4: 1, 3: 2, 5: 2, 6: 2, 7: 2, 8: 2, 9: 3}

HEAD = "atoms a; rule "
AT = len(HEAD)  # the place of the rule's first byte
NAME16 = "abcdefghijklmnop"
NAME17 = "abcdefghijklmnopq"
WORDS = ["atoms", "rule", "true", "false"]
PREFIXES = ["~", "YL", "OL", "HL", "YG", "OG", "HG"]
MARKS = ["(", ")", "~", "&", "|", "->", ",", ";", ".", "YL", "SL", "OL", "HL", "YG", "SG", "OG", "HG"]


def policy(atoms, lines):
    """What is printed for a policy: its atoms, and its lines in the short form, parted by blanks."""
    names = "".join(f" {name}={i}" for i, name in enumerate(atoms))
    rows = lines.split()
    return f"policy atoms {len(atoms)}:{names} lines {len(rows)}: {' '.join(rows)}"


def refused(number, place):
    return f"refused {number} layer {LAYERS[number]} place {place}"


# -- the vectors ---------------------------------------------------------------------------------------------------

SHORT = {"atom": "a{}", "no": "no", "yes": "yes", "not": "~{}", "or": "{}|{}", "YL": "YL{}", "SL": "{}SL{}",
         "YG": "YG{}", "SG": "{}SG{}"}


def vectors(path):
    with open(path, encoding="ascii") as file:
        for row in map(json.loads, file):
            text = bytes.fromhex(row["text"])
            if "refused" in row:
                yield text, f"refused {row['refused']} layer {row['layer']} place {row['place']}"
            else:
                yield text, policy(row["atoms"], " ".join(SHORT[op].format(*args) for op, *args in row["lines"]))


# -- rules of one line each ----------------------------------------------------------------------------------------

READ_RULES = [  # rules over the atoms a, b, c, d, with their lines
    ("true", "yes"), ("false", "no"), ("a", "a0"), ("d", "a3"), ("(a)", "a0"), ("((b))", "a1"),
    ("~a", "a0 ~0"), ("YL a", "a0 YL0"), ("YG a", "a0 YG0"),
    ("OL a", "yes a0 0SL1"), ("OG a", "yes a0 0SG1"),
    ("HL a", "yes a0 ~1 0SL2 ~3"), ("HG a", "yes a0 ~1 0SG2 ~3"),
    ("a SL b", "a0 a1 0SL1"), ("a SG b", "a0 a1 0SG1"), ("a | b", "a0 a1 0|1"),
    ("a & b", "a0 ~0 a1 ~2 1|3 ~4"), ("a -> b", "a0 ~0 a1 1|2"),
    # nothing is shared
    ("a | a", "a0 a0 0|1"),
    # glued signs
    ("aSLb", "a0 a1 0SL1"), ("aSGb", "a0 a1 0SG1"), ("YLa", "a0 YL0"), ("YLYGa", "a0 YG0 YL1"), ("YL~a", "a0 ~0 YL1"),
    ("a->b", "a0 ~0 a1 1|2"), ("(a)|~b", "a0 a1 ~1 0|2"), ("trueSLfalse", "yes no 0SL1"), ("OLHGa", "yes yes a0 ~2 1SG3 ~4 0SL5"),
    # chains group to the left; & binds before |, | before ->, SL and SG before &
    ("a | b | c", "a0 a1 0|1 a2 2|3"), ("a | (b | c)", "a0 a1 a2 1|2 0|3"),
    ("a & b & c", "a0 ~0 a1 ~2 1|3 ~4 ~5 a2 ~7 6|8 ~9"), ("a & (b & c)", "a0 ~0 a1 ~2 a2 ~4 3|5 ~6 ~7 1|8 ~9"),
    ("a | b & c", "a0 a1 ~1 a2 ~3 2|4 ~5 0|6"), ("a & b | c", "a0 ~0 a1 ~2 1|3 ~4 a2 5|6"),
    ("a & (b | c)", "a0 ~0 a1 a2 2|3 ~4 1|5 ~6"),
    ("a | b -> c | d", "a0 a1 0|1 ~2 a2 a3 4|5 3|6"), ("a SL b & c SG d", "a0 a1 0SL1 ~2 a2 a3 4SG5 ~6 3|7 ~8"),
    ("a SL (b & c)", "a0 a1 ~1 a2 ~3 2|4 ~5 0SL6"),
    # a prefix takes its unit alone
    ("~a SL b", "a0 ~0 a1 1SL2"), ("~(a SL b)", "a0 a1 0SL1 ~2"), ("YL a SG ~b", "a0 YL0 a1 ~2 1SG3"),
    ("~a -> ~b", "a0 ~0 ~1 a1 ~3 2|4"), ("HL a | b", "yes a0 ~1 0SL2 ~3 a1 4|5"), ("OG (a | b)", "yes a0 a1 1|2 0SG3"),
    # brackets chain what does not chain alone
    ("(a SL b) SL c", "a0 a1 0SL1 a2 2SL3"), ("a SL (b SL c)", "a0 a1 a2 1SL2 0SL3"), ("a SG (b SL c)", "a0 a1 a2 1SL2 0SG3"),
    ("(a -> b) -> c", "a0 ~0 a1 1|2 ~3 a2 4|5"), ("a -> (b -> c)", "a0 ~0 a1 ~2 a2 3|4 1|5"),
]

REFUSED_RULES = [  # rules over the atom a, with the number and the place behind the rule's first byte
    ("#.", 2, 0), ("1a.", 2, 0), ("Y a.", 2, 0), ("L a.", 2, 0), ("G a.", 2, 0), ("yL a.", 6, 0), ("Yl a.", 2, 0),
    ("YLL a.", 2, 2), ("YLYa.", 2, 2), ("aSSL a.", 2, 1), ("aS La.", 2, 1), ("a - > a.", 2, 2), ("a -b.", 2, 2), ("a -", 2, 2),
    ("a > a.", 2, 2), ("a-.", 2, 1), ("a--> a.", 2, 1), ("Y", 2, 0), ("a S", 2, 2), ("A.", 2, 0), ("_.", 2, 0), ("a == a.", 2, 2),
    # a sign's fault comes at its own place, behind what was wrong before it
    ("a) #.", 3, 1), ("a #.", 2, 2), ("c#", 6, 0), ("c #.", 6, 0), ("(c#", 6, 1), ("a & c#", 6, 4), ("a#", 2, 1), ("~#", 2, 1),
    ("a a#.", 3, 2), ("a & )#", 3, 4), ("a.#", 2, 2), ("a. #", 2, 3), ("a. a#", 3, 3),
    # what follows nothing that it may follow
    ("a SL a SL a.", 3, 7), ("a SL a SG a.", 3, 7), ("a SG a SG a.", 3, 7), ("aSLaSLa.", 3, 4), ("(a) SL (a) SL a.", 3, 11),
    ("a -> a -> a.", 3, 7), ("a->a->a.", 3, 4), ("(a -> a -> a).", 3, 8), ("a | a -> a & a -> a.", 3, 15),
    ("a b.", 3, 2), ("a true.", 3, 2), ("a (a).", 3, 2), ("a ~a.", 3, 2), ("a YL a.", 3, 2), ("a, a.", 3, 1), ("a; rule a.", 3, 1),
    ("().", 3, 1), ("(a.", 3, 2), ("(a))", 3, 3), ("a).", 3, 1), (").", 3, 0), (".", 3, 0), ("~.", 3, 1), ("~~).", 3, 2),
    ("a |.", 3, 3), ("a & & a.", 3, 4), ("a -> -> a.", 3, 5), ("SL a.", 3, 0), ("a SL SL a.", 3, 5), ("a | -> a.", 3, 4),
    ("a..", 3, 2), ("a. .", 3, 3), ("a.a", 3, 2), ("a. rule a.", 3, 3), ("a.~", 3, 2), ("a.(", 3, 2),
    # reserved words are no names, in the rule too
    ("atoms.", 3, 0), ("rule.", 3, 0), ("a & rule.", 3, 4), ("~atoms.", 3, 1),
    # names
    ("b.", 6, 0), ("a1.", 6, 0), ("aa.", 6, 0), ("true1.", 6, 0), ("rulea.", 6, 0), ("a & b.", 6, 4), ("~(a | b).", 6, 6),
    (NAME16 + ".", 6, 0), (NAME17 + ".", 4, 0), ("a " + NAME16 + ".", 3, 2), ("a " + NAME17 + ".", 4, 2),
    ("a. " + NAME17, 4, 3), ("a." + NAME16, 3, 2), ("(" + NAME17 + "#", 4, 1), ("truetruetruetruet.", 4, 0), ("1" * 17, 2, 0),
    ("a" + "0" * 15, 6, 0), ("a" + "0" * 16, 4, 0),
]


def rules():
    for rule, lines in READ_RULES:
        yield f"atoms a, b, c, d; rule {rule}.", policy("abcd", lines)
    for rule, number, place in REFUSED_RULES:
        yield HEAD + rule, refused(number, AT + place)


# -- the depot's examples and whole texts --------------------------------------------------------------------------

def texts():
    yield "atoms door, warm; rule HG (door -> ~ OL warm).", policy(["door", "warm"], "yes a0 ~1 yes a1 3SL4 ~5 2|6 ~7 0SG8 ~9")
    yield "atoms p; rule YL YG p.", policy("p", "a0 YG0 YL1")
    yield "atoms p; rule YLp.", policy("p", "a0 YL0")
    yield "atoms p; rule YLL p.", refused(2, 16)
    # the empty text, blanks alone, blanks of each kind
    for blanks in ["", " ", "\t\n\r ", " " * 100]:
        yield blanks, refused(3, len(blanks))
    yield "atoms a;rule a.", policy("a", "a0")
    yield "\tatoms\na\r;\r\nrule\ta\n.\r\n\t ", policy("a", "a0")
    for blank in "\t\n\r ":
        yield f"atoms{blank}a;rule{blank}a.{blank}", policy("a", "a0")
    # the end comes too early: its place is the text's length, with the blanks before it
    whole = "atoms a , b ; rule ( a -> ~ OL b ) SL true & YG false | HG a .".split(" ")
    for count in range(len(whole)):
        for blanks in ["", " ", "\n \r\t"]:
            text = " ".join(whole[:count]) + blanks
            yield text, refused(3, len(text))
    yield " ".join(whole), policy("ab", "a0 ~0 yes a1 2SL3 ~4 1|5 yes 6SL7 ~8 no YG10 ~11 9|12 ~13 yes a0 ~16 15SG17 ~18 14|19")
    # the declarations
    for text, number, place in [
        ("a", 3, 0), ("atomsa; rule a.", 3, 0), ("Atoms a; rule a.", 2, 0), ("rule a.", 3, 0), ("; rule a.", 3, 0), ("#", 2, 0),
        ("atoms; rule a.", 3, 5), ("atoms , a; rule a.", 3, 6), ("atoms a,; rule a.", 3, 8), ("atoms a b; rule a.", 3, 8),
        ("atoms a. rule a.", 3, 7), ("atoms a rule a.", 3, 8), ("atoms a; a.", 3, 9), ("atoms a;rulea.", 3, 8), ("atoms a;; rule a.", 3, 8),
        ("atoms a, b c; rule a.", 3, 11), ("atoms (a); rule a.", 3, 6), ("atoms a; atoms b; rule a.", 3, 9), ("atoms YL; rule a.", 3, 6),
        ("atoms a, a; rule a.", 5, 9), ("atoms a, a#", 5, 9), ("atoms a, b, a", 5, 12), ("atoms a, a1, a1; rule a.", 5, 13),
        ("atoms a#; rule a.", 2, 7), ("atoms 1a; rule a.", 2, 6), ("atoms a-b; rule a.", 2, 7), ("atoms a, B; rule a.", 2, 9),
        (NAME17, 4, 0), (NAME16, 3, 0), (f"atoms {NAME17}; rule a.", 4, 6), (f"atoms a {NAME17}; rule a.", 4, 8),
        (f"atoms a; {NAME17}", 4, 9), (f"atoms {NAME16}; rule a.", 6, 29), ("a" * 8000, 4, 0),
    ]:
        yield text, refused(number, place)
    for word in WORDS:
        yield f"atoms {word}; rule a.", refused(3, 6)
        yield f"atoms a, {word}; rule a.", refused(3, 9)
        yield f"atoms {word}a, {word}1; rule {word}1.", policy([word + "a", word + "1"], "a1")
    yield f"atoms {NAME16}; rule {NAME16}.", policy([NAME16], "a0")
    yield f"atoms {NAME16}, {NAME16[:-1]}; rule {NAME16[:-1]}.", policy([NAME16, NAME16[:-1]], "a1")
    yield "atoms z9, a, az, a0; rule az | a0 | a | z9.", policy(["z9", "a", "az", "a0"], "a2 a3 0|1 a1 2|3 a0 4|5")


# -- each sign in each place of the grammar ------------------------------------------------------------------------

UNITS = ["(", "true", "false", "a"] + PREFIXES
PLACES = [  # what stands before the sign, the signs that fit there, and the lines where a full stop ends the text
    ("", ["atoms"], None),
    ("atoms ", ["a", "b"], None),
    ("atoms a ", [",", ";"], None),
    ("atoms a, ", ["b"], None),
    ("atoms a; ", ["rule"], None),
    (HEAD, UNITS, None),
    (HEAD + "~ ", UNITS, None),
    (HEAD + "( ", UNITS, None),
    (HEAD + "a SL ", UNITS, None),
    (HEAD + "a SG ", UNITS, None),
    (HEAD + "a & ", UNITS, None),
    (HEAD + "a | ", UNITS, None),
    (HEAD + "a -> ", UNITS, None),
    (HEAD + "a ", ["SL", "SG", "&", "|", "->"], "a0"),
    (HEAD + "~ a ", ["SL", "SG", "&", "|", "->"], "a0 ~0"),
    (HEAD + "(a) ", ["SL", "SG", "&", "|", "->"], "a0"),
    (HEAD + "(a ", ["SL", "SG", "&", "|", "->", ")"], None),
    (HEAD + "(a -> a ", ["SL", "SG", "&", "|", ")"], None),
    (HEAD + "a SL a ", ["&", "|", "->"], "a0 a0 0SL1"),
    (HEAD + "a SG a ", ["&", "|", "->"], "a0 a0 0SG1"),
    (HEAD + "a & a ", ["SL", "SG", "&", "|", "->"], "a0 ~0 a0 ~2 1|3 ~4"),
    (HEAD + "a | a ", ["SL", "SG", "&", "|", "->"], "a0 a0 0|1"),
    (HEAD + "a -> a ", ["SL", "SG", "&", "|"], "a0 ~0 a0 1|2"),
    (HEAD + "a -> a SL a ", ["&", "|"], "a0 ~0 a0 a0 2SL3 1|4"),
    (HEAD + "a. ", [], None),
]


def fitting():
    for before, fit, lines in PLACES:
        for sign in MARKS + WORDS + ["a", "b"]:
            text = before + sign
            if sign in fit:
                yield text, refused(3, len(text))
            elif sign == "." and lines is not None:
                yield text, policy("a", lines)
            elif sign == "b" and "a" in fit:  # not declared, where a name fits
                yield text, refused(6, len(before))
            elif sign == "a" and "b" in fit:  # declared before
                yield text, refused(5, len(before))
            else:
                yield text, refused(3, len(before))


# -- each byte -----------------------------------------------------------------------------------------------------

def every_byte():
    head = HEAD.encode()
    for b in range(256):
        byte, char = bytes([b]), chr(b)
        blank, lower, digit = b in (9, 10, 13, 32), "a" <= char <= "z", "0" <= char <= "9"
        # the last byte of the text
        if blank or char in "(~a":
            want = refused(3, AT + 1)
        elif lower:
            want = refused(6, AT)
        else:
            want = refused(3 if char in ")&|,;." else 2, AT)
        yield head + byte, want
        # at the head of a rule
        if blank or char == "~":
            want = policy("a", "a0" if blank else "a0 ~0")
        elif char in "(a":
            want = refused(3, AT + (3 if char == "(" else 2))
        yield head + byte + b" a.", want
        # glued to a name
        if char in "|&":
            want = policy("a", "a0 a0 0|1" if char == "|" else "a0 ~0 a0 ~2 1|3 ~4")
        elif lower or digit:
            want = refused(6, AT)
        elif blank or char == ".":
            want = refused(3, AT + 3)
        else:
            want = refused(3 if char in "()~,;" else 2, AT + 1)
        yield head + b"a" + byte + b" a.", want
        # behind a letter of a pair, and behind the hyphen
        if char in "LG":
            want = policy("a", f"a0 Y{char}0")
        else:
            want = refused(2, AT)
        yield head + b"Y" + byte + b" a.", want
        yield head + b"a -" + byte + b" a.", policy("a", "a0 ~0 a0 1|2") if char == ">" else refused(2, AT + 2)
        # behind the full stop
        if blank:
            want = policy("a", "a0")
        else:
            want = refused(3 if lower or char in "()~&|,;." else 2, AT + 2)
        yield head + b"a." + byte, want


# -- limits --------------------------------------------------------------------------------------------------------

def nots(part, count):
    """The lines of `count` signs `~` before a part whose last line is `part`."""
    return " ".join(f"~{part + i}" for i in range(count))


def lengths():
    whole = HEAD + "a."
    yield whole.ljust(8192), policy("a", "a0")
    yield whole.rjust(8192), policy("a", "a0")
    yield whole.ljust(8191) + "#", refused(2, 8191)
    yield whole.ljust(8191) + "a", refused(3, 8191)
    yield (HEAD + "a").ljust(8192), refused(3, 8192)
    yield " " * 8192, refused(3, 8192)
    yield "#".ljust(8192), refused(2, 0)
    yield "a" * 8192, refused(4, 0)
    for text in [whole.ljust(8193), whole.rjust(8193), " " * 8193, "#".ljust(8193), "a" * 8193, whole.ljust(9000)]:
        yield text, refused(1, 8192)


def atoms():
    names = [f"n{i}" for i in range(33)]

    def declare(listed, rest):
        return f"atoms {', '.join(listed)}{rest}"

    last = len(declare(names[:32], ", "))
    yield declare(names[:31], "; rule n30."), policy(names[:31], "a30")
    yield declare(names[:32], "; rule n31."), policy(names[:32], "a31")
    yield declare(names[:32], "; rule n32."), refused(6, len(declare(names[:32], "; rule ")))
    for rest in ["; rule n31.", "", "#", " b"]:
        yield declare(names, rest), refused(7, last)
    for again in ["n0", "n31"]:  # a repeated 33rd atom
        yield declare(names[:32] + [again], "; rule n31."), refused(5, last)
    yield declare(names[:32] + [NAME17], "; rule n31."), refused(4, last)
    yield declare(names[:32] + ["rule"], " n31."), refused(3, last)
    yield declare(names[:32] + ["#"], ""), refused(2, last)


def depth():
    yield HEAD + "~" * 32 + "a.", policy("a", "a0 " + nots(0, 32))
    yield HEAD + "(" * 32 + "a" + ")" * 32 + ".", policy("a", "a0")
    yield HEAD + "~" * 32 + "b.", refused(6, AT + 32)
    yield HEAD + "~" * 32, refused(3, AT + 32)
    yield HEAD + "YL" * 32 + "a.", policy("a", "a0 " + " ".join(f"YL{i}" for i in range(32)))
    for sign in ["~", "("]:  # the 33rd is refused at once, whatever follows
        for rest in ["a.", "", "#", sign]:
            yield HEAD + sign * 33 + rest, refused(8, AT + 32)
    yield HEAD + "HG " * 32 + "HG a.", refused(8, AT + 96)
    # brackets and prefixes are counted together
    yield HEAD + "~" * 19 + "(" * 13 + "a" + ")" * 13 + ".", policy("a", "a0 " + nots(0, 19))
    yield HEAD + "(" * 13 + "~" * 19 + "a" + ")" * 13 + ".", policy("a", "a0 " + nots(0, 19))
    yield HEAD + "~(" * 16 + "a" + ")" * 16 + ".", policy("a", "a0 " + nots(0, 16))
    yield HEAD + "~" * 20 + "(" * 13 + "a" + ")" * 13 + ".", refused(8, AT + 32)
    yield HEAD + "(" * 13 + "~" * 20 + "a" + ")" * 13 + ".", refused(8, AT + 32)
    yield HEAD + "~(" * 16 + "~a" + ")" * 16 + ".", refused(8, AT + 32)
    # what is closed is given back, on both sides of each sign that joins
    deep = "~" * 32 + "a"
    for sign, ends in [("SL", "32SL65"), ("SG", "32SG65"), ("|", "32|65")]:
        yield f"{HEAD}{deep} {sign} {deep}.", policy("a", f"a0 {nots(0, 32)} a0 {nots(33, 32)} {ends}")
    yield f"{HEAD}{deep} & {deep}.", policy("a", f"a0 {nots(0, 32)} ~32 a0 {nots(34, 32)} ~66 33|67 ~68")
    yield f"{HEAD}{deep} -> {deep}.", policy("a", f"a0 {nots(0, 32)} ~32 a0 {nots(34, 32)} 33|66")
    shut = "(" * 32 + "a" + ")" * 32
    yield f"{HEAD}{shut} | {shut} | {shut}.", policy("a", "a0 a0 0|1 a0 2|3")
    mixed = "~(" * 16 + "a" + ")" * 16
    yield f"{HEAD}{mixed} | {mixed}.", policy("a", f"a0 {nots(0, 16)} a0 {nots(17, 16)} 16|33")
    yield f"{HEAD}{deep} & ~{deep}.", refused(8, AT + 36 + 32)
    # and not before: an open bracket counts for both sides, its prefix too
    yield f"{HEAD}(a & {deep}).", refused(8, AT + 5 + 31)
    yield f"{HEAD}({deep[1:]} SL {deep[1:]}).", policy("a", f"a0 {nots(0, 31)} a0 {nots(32, 31)} 31SL63")
    yield f"{HEAD}~(a | {deep}).", refused(8, AT + 6 + 30)
    yield f"{HEAD}~(a) | {deep}.", policy("a", f"a0 ~0 a0 {nots(2, 32)} 1|34")


def chain(first, names):
    """The lines of a chain by `|`, where the first part has these lines and the others are the atom 0."""
    rows = first.split()
    for _ in range(names - 1):
        left = len(rows) - 1
        rows += ["a0", f"{left}|{left + 1}"]
    return " ".join(rows)


def tables():
    def ors(names, first="a"):
        return HEAD + " | ".join([first] + ["a"] * (names - 1))

    yield ors(64) + ".", policy("a", chain("a0", 64))
    yield ors(64, "~a") + ".", policy("a", chain("a0 ~0", 64))
    for rest in [".", " .", ". \n", ".".ljust(1000)]:
        yield ors(65) + rest, refused(9, len(ors(65) + rest))
    yield ors(64, "~~a") + ".", refused(9, len(ors(64, "~~a") + "."))
    yield ors(65).ljust(8191) + ".", refused(9, 8192)
    yield ors(65).ljust(8192) + ".", refused(1, 8192)
    many = HEAD + "|".join(["a"] * 4088) + "."
    yield many, refused(9, len(many))
    # every other fault wins
    yield ors(65), refused(3, len(ors(65)))
    yield ors(65) + ")", refused(3, len(ors(65)))
    yield ors(65) + "#", refused(2, len(ors(65)))
    yield ors(65) + ".#", refused(2, len(ors(65)) + 1)
    yield ors(65) + ". a", refused(3, len(ors(65)) + 2)
    yield ors(65) + " | b.", refused(6, len(ors(65)) + 3)
    yield ors(65) + " | " + "~" * 33, refused(8, len(ors(65)) + 3 + 32)
    # 26 names by `&` have 126 lines, each further one five more
    ands = "a0"
    for i in range(25):
        ands += f" ~{5 * i} a0 ~{5 * i + 2} {5 * i + 1}|{5 * i + 3} ~{5 * i + 4}"
    yield HEAD + "&".join(["a"] * 26) + ".", policy("a", ands)
    yield HEAD + "YL YG(" + "&".join(["a"] * 26) + ").", policy("a", ands + " YG125 YL126")
    over = HEAD + "~~~(" + "&".join(["a"] * 26) + ")."
    yield over, refused(9, len(over))
    over = HEAD + "&".join(["a"] * 27) + "."
    yield over, refused(9, len(over))
    # brackets make no line
    yield HEAD + "|".join(["((a))"] * 64) + ".", policy("a", chain("a0", 64))


def cases(path):
    yield from vectors(path)
    for group in [rules, texts, fitting, every_byte, lengths, atoms, depth, tables]:
        for text, want in group():
            yield (text if isinstance(text, bytes) else text.encode("ascii")), want


def main():
    if len(sys.argv) != 2:
        sys.exit(__doc__)
    listed = list(cases(sys.argv[1]))
    for name, column in [("stdin", [text.hex() for text, _ in listed]), ("stdout", [want for _, want in listed])]:
        with open(os.path.join(FOLDER, name), "w", encoding="ascii") as file:
            file.write("".join(row + "\n" for row in column))
    print(f"{len(listed)} cases")


if __name__ == "__main__":
    main()
