#!/usr/bin/env python3
"""Respells this repository's own names of specs/ and proofs/ that begin with a small letter and have a capital inside: keptPart becomes kept_part.

usage: python3 tools/respell.py [--list]       at the top of the repository; --list only prints the names, old and new

It goes over .antt, .rt and .edit files below crates/, and over the Markdown pages, where it turns only what stands between back ticks. Functions of src/ have
no such names. A name that stood before under the new spelling, in a file that has both, is printed as 'falls together', and nothing is written.
"""
import collections
import os
import re
import sys

TOKEN = re.compile(r"[^\s(){}\[\];,.:«»\"`|]+")
CAMEL = re.compile(r"(?<![A-Za-z0-9\\\\])[a-z][a-z0-9]*(?:[A-Z][A-Za-z0-9]*)+")
# names that are not a small letter's word with capitals inside
ONE_BY_ONE = {"getD": "get_or"}
TYPES = {"below_all": "BelowAll"}
# lemmas named as the definition that they are about: where each stands and is cited
LEMMAS = {
    "first_entry": ("first_entry-is", ["append/proofs/NodeLaws"]),
    "first_run": ("first_run-is", ["scan/proofs/Asked", "slices/proofs/Reading", "stretches/proofs/parts/picked/Proof"]),
    "kept_spans": ("kept_spans-are", ["format/proofs/SpanLaws", "list_counts/proofs/Counts", "nesting/proofs/Tree", "roundtrip/proofs/Rows", "stretches/proofs/Keeping"]),
    "node_at": ("node_at-is", ["roundtrip/proofs/Again", "roundtrip/proofs/Octets"]),
    "run_end": ("run_end-is", ["roundtrip/proofs/Again", "roundtrip/proofs/Content"]),
    "run_ends": ("run_ends-are", ["format/proofs/Accepted"]),
    "same_kept": ("same_kept-are", ["witness/proofs/Filter"]),
    "body_end": ("body_end-is", ["node_body/proofs/AddLaws", "body/proofs/KeptLaws"]),
}


def snake(m):
    word = m.group(0)
    if word in ONE_BY_ONE:
        return ONE_BY_ONE[word]
    return re.sub(r"([A-Z]+)", lambda c: "_" + c.group(1).lower(), word)


def name(m):
    word = m.group(0)
    if word[0].isdigit():
        return word
    return TYPES[word] if word in TYPES else CAMEL.sub(snake, word)


def respelled(text, path=""):
    for lemma, (to, where) in LEMMAS.items():
        if any(path == f"crates/{w}.antt" for w in where):
            text = TOKEN.sub(lambda m: to if m.group(0) == lemma else m.group(0), text)
    return TOKEN.sub(name, text)


def page(text):
    return re.sub(r"`[^`\n]+`", lambda m: respelled(m.group(0)), text)


def files(endings, *tops):
    for top in tops:
        for folder, dirs, names in os.walk(top):
            dirs[:] = sorted(d for d in dirs if d not in ("out", "target", ".git"))
            for f in sorted(names):
                if f.endswith(endings):
                    yield os.path.join(folder, f)


def main():
    pairs, together, changed = {}, collections.defaultdict(set), {}
    functions = set(os.listdir("crates"))
    for p in files((".rt",), "crates"):
        functions |= {a or b for a, b in re.findall(r"\bfn (\w+)|^ +(?:pub )?(\w+): ", open(p, encoding="utf8").read(), re.M)}
    for p in files((".antt", ".rt", ".edit"), "crates"):
        old = open(p, encoding="utf8").read()
        new = respelled(old, p)
        tokens = set(TOKEN.findall(old))
        for t in tokens:
            n = TOKEN.sub(name, t)
            if n != t:
                pairs[t] = n
                # a function or a field of src/ may have a definition's name: the one is never where the other can be
                if n in tokens and n not in functions and n not in LEMMAS:
                    together[n].add(p)
        if new != old:
            changed[p] = new
    for p in files((".md",), "docs", "host"):
        changed[p] = page(open(p, encoding="utf8").read())
    changed["README.md"] = page(open("README.md", encoding="utf8").read())
    if "--list" in sys.argv:
        for t, n in sorted(pairs.items()):
            print(t, n)
    for n, where in sorted(together.items()):
        print("falls together:", n, "in", *sorted(where))
    if together or "--list" in sys.argv:
        return 1 if together else 0
    for p, new in changed.items():
        with open(p, "w", encoding="utf8") as f:
            f.write(new)
    print(len(pairs), "names,", len(changed), "files")
    return 0


sys.exit(main())
