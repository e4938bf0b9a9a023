#!/usr/bin/env python3
"""Reads the JSON of the replies of crates/json_read with Python's json, and compares it with what these replies say.

    (cd crates/json_read && rt run)            builds the program
    crates/json_read/out/json_read print | tools/read-json.py

What the replies say is written down here anew; lines and columns are counted here too. Each line has to be read as it is meant,
with no key twice, and to be written again by Python as the same bytes: keys in byte order, no spaces, the same escapes. Prints a
line for each reply, and ends with 1 where something differs.
"""
import json
import sys

TEXT = b"package a\n\nfunc g() {\n\tx = x\n\ty = y\n}\n"
NAMES = ["types", "assign", "bools", "copylocks", "ctrlflow", "nilfunc", "printf", "stringintconv", "structtag", "unreachable", "unusedresult"]


def posn(offset):
    if offset is None:
        return ""
    front = TEXT[:offset]
    return f"a.go:{front.count(10) + 1}:{len(front) - (front.rfind(10) + 1) + 1}"


def said(entries):
    """Each entry is a package, an analyzer's number or 0, an offset or None, and the bytes of a text. Error lines stand before the others."""
    value = {}
    for package, number, offset, text in [e for e in entries if e[1] == 0] + [e for e in entries if e[1] != 0]:
        try:
            message = text.decode("utf-8")
        except UnicodeDecodeError:
            message = ""
        value.setdefault(package, {}).setdefault(NAMES[number], []).append({"message": message, "posn": posn(offset)})
    return value


EACH_KIND = [
    ("m/a", 0, 23, b"E32 not assignable"),
    ("m/b", 0, None, b"blocked by m/c"),
    ("m/b", 0, 10, b"syntax error"),
    ("m/a", 1, 23, b"self-assignment of x"),
    ("m/a", 9, 23, b"unreachable code"),
    ("m/a", 1, 30, b"self-assignment of y"),
]
CHARACTERS = ["\u007f\u0080", "\u07ff\u0800", "\ud7ff\ue000", "\uffff\U00010000", "\U0010ffff", "\u2028\u2029", "\ufffd\ufeff",
              '"\u00e9"\\\U0001f600/', '{"message":"\\u0041"}', '\\\\\\"\n\r\t', ""]
ANALYZERS = [("m/a", 0, None, b"import cycle")] + [("m/a", n, 36, b"this") for n in range(10, 0, -1)] + [("m/a", 10, 29, b"that")]
PACKAGES = [("m/a/b", 0, 38, b"one"), ("m/a-b", 0, 28, b"two"), ("n", 0, 21, b"three"), ("m/a", 0, 11, b"four"), ("m/ab", 0, 9, b"five"),
            ("m", 0, 0, b"six"), ("m/b", 4, 0, b"seven"), ("m/a.b", 4, 0, b"eight"), ("m/A", 4, 0, b"nine"), ("m/a", 4, 0, b"ten"),
            ("m/a/b", 4, 0, b"eleven")]
REPLIES = [
    ("nothing", []),
    ("each kind of line", EACH_KIND),
    ("characters", [("m/a", 6, 0, text.encode("utf-8")) for text in CHARACTERS] + [("m/a", 6, 0, b"\xed\xa0\x80")]),
    ("analyzers", ANALYZERS),
    ("packages", PACKAGES),
    ("each byte", [("m/a", 0, None, bytes([b])) for b in range(256)]),
]


def once(pairs):
    keys = [key for key, _ in pairs]
    if len(keys) != len(set(keys)):
        raise ValueError(f"a key twice among {keys}")
    return dict(pairs)


def verdict(line, entries):
    try:
        value = json.loads(line.decode("utf-8"), object_pairs_hook=once)
    except ValueError as error:
        return f"not read: {error}"
    if value != said(entries):
        return "read otherwise than it is said"
    again = json.dumps(value, ensure_ascii=False, separators=(",", ":"), sort_keys=True)
    if again.encode("utf-8") != line:
        return "written otherwise by Python"
    return ""


def main():
    lines = sys.stdin.buffer.read().split(b"\n")
    if len(lines) != len(REPLIES) + 1 or lines[-1] != b"":
        print(f"{len(lines) - 1} lines, not {len(REPLIES)}")
        return 1
    bad = 0
    for line, (name, entries) in zip(lines, REPLIES):
        how = verdict(line, entries)
        bad |= how != ""
        print(f"{name}: " + (how or f"{len(entries)} read as they are said"))
    return bad


sys.exit(main())
