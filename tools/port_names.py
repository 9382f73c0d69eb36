#!/usr/bin/env python3
"""Brings this repository's own names to the spelling of today's Rattle: definitions, lemmas, fields and constructors in snake case.

usage: tools/port_names.py [--list]     at the top of the repository, once, after the toolchain's own port.py

A name is turned where it is declared in specs/ or proofs/ of some crate: sumBelow -> sum_below, next-fits -> next_fits.
Not turned: names of functions of src/, exported names, strings, inputs and outputs; names that the toolchain makes (goals, steps);
names that a file brings in from the toolchain's library. In comments only the camel-case names are turned, since a dash is also English.
--list prints the names, old and new, and what falls together, and writes nothing.
"""

import os
import re
import sys

WORD = re.compile(r"[^\s(){}\[\],;.«»\"`λ∷⌜⌝]+")
DECLARED = re.compile(r"^\s*(?:pub |abbrev |unfoldable )*([^\s(){};,.:λ«»]+) : ")
# names that would mean something else in their place, and what they are called instead
OWN = {
    "angle-on": "angle_on_lem",
    "band-span": "band_span_lem",
    "entry-in-bounds": "entry_in_bounds_lem",
    "first-in": "first_in_lem",
    "first-no": "first_no_lem",
    "fresh-ledger": "fresh_ledger_lem",
    "globe-map": "globe_map_lem",
    "gone-on": "gone_on_lem",
    "held-or": "held_or_lem",
    "kernel-covers": "kernel_covers_lem",
    "least-line": "least_line_lem",
    "missed-north": "missed_north_lem",
    "most-digits": "most_digits_lem",
    "most-line": "most_line_lem",
    "on-grid": "on_grid_lem",
    "own-fits": "own_fits_lem",
    "place-fits": "place_fits_lem",
    "place-well": "place_well_lem",
    "places-free": "places_free_lem",
    "probe-row": "probe_row_lem",
    "reached-at": "reached_at_lem",
    "ring-job": "ring_job_lem",
    "slack-from": "slack_from_lem",
    "table-map": "table_map_lem",
    "wide-radius": "wide_radius_lem",
    "word-of": "word_of_lem",
    "rowOn": "row_on_grid",
    "shortBelow": "short_below_of",
    "radiiEvaluated": "radii_evaluated_of",
}
# the same in one file alone, where the port has spelled a lemma as the definition
HERE = {"crates/ledger/proofs/Putting.antt": {"with_entries": "with_entries_lem"}}
# names that the toolchain makes for a proof by hand
MADE = re.compile(r"^(Need|After|Else|Then|returns|closed)-")


def files(root, ends):
    for folder, dirs, names in os.walk(os.path.join(root, "crates")):
        dirs[:] = sorted(d for d in dirs if d not in ("out", ".git"))
        for f in sorted(names):
            if f.endswith(ends):
                yield os.path.join(folder, f)


def snake(name):
    if name in OWN:
        return OWN[name]
    if re.match(r"^[a-z]", name) and re.search(r"[A-Z]", name):
        name = re.sub(r"(?<=[a-z0-9])([A-Z])", lambda m: "_" + m.group(1).lower(), name)
        name = name[0] + re.sub(r"[A-Z]", lambda m: m.group(0).lower(), name[1:])
    if re.match(r"^[a-zκ]", name):
        name = name.replace("-", "_")
    return name


def declared(root):
    found = {}
    for p in files(root, (".antt",)):
        hand = os.path.basename(p) == "Proof.antt"
        with open(p, encoding="utf-8") as f:
            for line in f:
                m = DECLARED.match(line)
                if m is None:
                    continue
                name = m.group(1)
                if hand and re.search(r" : tie\.|statement M|_spec : |-spec : ", line):
                    continue
                if name.endswith("-spec") or MADE.match(name) or snake(name) == name:
                    continue
                found.setdefault(name, set()).add(p)
    return found


def library_names(text, crates):
    kept = set()
    for m in re.finditer(r"^(?:ghost |pub )*use ([^\s{}]+?)(?:\.\{([^}]*)\})?(?: as \S+)?;?$", text, re.M):
        path = m.group(1).split(".")
        if path[0] == "Rattle" and len(path) > 1 and path[1] in crates:
            continue
        for item in (m.group(2) or "").split(","):
            kept.update(item.split(" as ")[0].split())
    return kept


def comment_at(line, mark):
    if mark == "--":
        m = re.search(r"(?:^|\s)--(?:\s|$)", line)
        return m.start() if m else len(line)
    at, inside, i = len(line), False, 0
    while i < len(line):
        if line[i] == '"' and (i == 0 or line[i - 1] != "'"):
            inside = not inside
        if not inside and line.startswith("//", i):
            return i
        i += 1
    return at


def turned(path, text, names, crates):
    mark = "//" if path.endswith(".rt") else "--"
    kept = library_names(text, crates)
    names = names | HERE.get(os.path.relpath(path), {})

    def one(m):
        w = m.group(0)
        return names[w] if w in names and w not in kept else w

    def said(m):
        w = m.group(0)
        return names[w] if w in names and w not in kept and "-" not in w else w

    if os.path.basename(path) == "Proof.antt":
        text = re.sub(r"(?<=[\w'])-spec(?![\w'-])", "_spec", text)
    out = []
    for line in text.split("\n"):
        at = comment_at(line, mark)
        code, rest = line[:at], line[at:]
        if mark == "//":
            parts = re.split(r'("(?:[^"\\]|\\.)*")', code)
            code = "".join(p if i % 2 else WORD.sub(one, p) for i, p in enumerate(parts))
        else:
            code = WORD.sub(one, code)
        out.append(code + WORD.sub(said, rest))
    return "\n".join(out)


def main():
    root = "."
    crates = {d for d in os.listdir("crates")}
    found = declared(root)
    names = {n: snake(n) for n in found}
    back = {}
    for n, s in names.items():
        back.setdefault(s, []).append(n)
    if "--list" in sys.argv:
        for s, ns in sorted(back.items()):
            if len(ns) > 1:
                print("together:", s, *ns)
        for p in files(root, (".antt", ".rt")):
            with open(p, encoding="utf-8") as f:
                text = f.read()
            kept = library_names(text, crates)
            words = set(WORD.findall("\n".join(l[: comment_at(l, "//" if p.endswith(".rt") else "--")] for l in text.split("\n"))))
            for n in sorted(words & set(names)):
                if n not in kept and names[n] in words:
                    print("in use:", p, n, "->", names[n])
        for n in sorted(names):
            print(n, names[n])
        return
    changed = 0
    for p in files(root, (".antt", ".rt")):
        with open(p, encoding="utf-8") as f:
            text = f.read()
        new = turned(p, text, names, crates)
        if new != text:
            with open(p, "w", encoding="utf-8") as f:
                f.write(new)
            changed += 1
    print(f"port_names: {len(names)} names, {changed} files")


main()
