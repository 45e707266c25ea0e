#!/usr/bin/env python3
"""Spells this repository's own definitions and lemmas in snake case, once, after the kit's port.py.

usage: python3 tools/snake_case.py [--check]      at the top of the repository

    billWith, orNotEnrolled, each-adds-up, not-refused  ->  bill_with, or_not_enrolled, each_adds_up, not_refused

A dash stays where it joins two names of functions, as in length-shifted. Names of types and facts keep their capitals, names that Rattle makes
for goals and steps keep their form, and functions of src/, strings, comments and clause labels stay as they are. With --check it prints
the names and writes nothing. It stops where two names would fall together.
"""

import os
import re
import sys

# Names of the library's functions that a lemma's name may join by a dash.
JOINED = set("length take drop set map append replicate sum filter count get_or sum_by range_with_len insert between splice concat divides rem div min max cond elim".split())
# Where the plain spelling is taken by another name, or hides one: the name that stands for it.
OTHERWISE = {
    "day-in": "day_in_lem",
    "is-unread": "is_unread_lem",
    "member-at": "member_at_lem",
    "quad-of": "quad_of_lem",
    "read-on": "read_on_lem",
    "in_order": "in_order_lem",
    "place_at": "place_at_lem",
    "too_large": "too_large_lem",
    "getD-all-same": "get_or-all_same",
    "getD-from-day": "get_or-from_day",
    "getD-tabulated": "get_or-tabulated",
}
TOKEN = re.compile(r"--[^\n]*|\"(?:[^\"\\]|\\.)*\"|b?'(?:[^'\\]|\\.)'|//[^\n]*|[^\s(){}\[\].;,@\"\\]+")
DECLARED = re.compile(r"^\s*(?:abbrev |unfoldable |opaque |private |ruleset |pub )*([a-z][\w'·-]*)\s*(?:\{[^}]*\}\s*)*:(?!=)(.*)$")


def files(kinds):
    for folder, dirs, names in os.walk("crates"):
        dirs[:] = sorted(d for d in dirs if d != "out")
        for name in sorted(names):
            if name.endswith(kinds):
                yield os.path.join(folder, name)


def read(path):
    with open(path, encoding="utf-8") as it:
        return it.read()


def code(text):
    return re.sub(r"--[^\n]*|\"(?:[^\"\\]|\\.)*\"", "", text)


def declared():
    """The names that specs/ and proofs/ declare, but for goals, steps, invariants and measures."""
    own, made = set(), set()
    for path in files((".antt",)):
        for line in code(read(path)).split("\n"):
            m = DECLARED.match(line)
            if not m or line.lstrip().startswith(("let ", "use ")):
                continue
            (made if re.match(r"\s*(goal|given|Goals|Given)\.", m.group(2)) else own).add(m.group(1))
    return own - made


def snake(name, own):
    if re.fullmatch(r"[a-z][a-z0-9_']*", name) or "·" in name:
        return name
    parts = re.sub(r"(?<=[a-z0-9])([A-Z])(?=[a-z])", lambda m: "_" + m.group(1).lower(), name).split("-")
    functions = JOINED | {re.sub(r"(?<=[a-z0-9])([A-Z])", lambda m: "_" + m.group(1).lower(), it) for it in own if "-" not in it and "_" not in it}
    out = parts[0]
    for before, part in zip(parts, parts[1:]):
        out += ("-" if before in functions and part in functions and before in JOINED else "_") + part
    return out


def main(argv):
    own = declared()
    new = {name: OTHERWISE.get(name, snake(name, own)) for name in own}
    new = {a: b for a, b in new.items() if a != b}
    seen = {}
    for a, b in new.items():
        seen.setdefault(b, []).append(a)
    together = {b: a for b, a in seen.items() if len(a) > 1 or (b in own and b not in new)}
    if together:
        for b, a in sorted(together.items()):
            print(f"fall together: {', '.join(sorted(a))} -> {b}{' (a name already)' if b in own else ''}", file=sys.stderr)
    if "--check" in argv:
        for a, b in sorted(new.items()):
            print(f"{a} -> {b}")
        return 1 if together else 0
    if together:
        return 1
    for path in files((".antt", ".rt")):
        text = read(path)

        def turned(m):
            it = m.group(0)
            if it.startswith(("--", "//", '"', "'", "b'")):
                return it
            # the names of goals and steps that a proof file answers keep their form
            if text[: m.start()].endswith(("goal.", "given.", "goal.at.")):
                return it
            return new.get(it, it)

        after = TOKEN.sub(turned, text)
        if after != text:
            with open(path, "w", encoding="utf-8") as out:
                out.write(after)
            print(path)
    return 0


if __name__ == "__main__":
    raise SystemExit(main(sys.argv[1:]))
