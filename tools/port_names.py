#!/usr/bin/env python3
"""Brings the repository's own names to the spelling of today's Rattle. It was run twice in the port, once each way:

    python3 tools/port_names.py before    at the landed commit, before the toolchain's port.py
    python3 tools/port_names.py after     after it

`before` respells one local name of a proof, `so_far`: port.py takes a repository that has it for one that is turned.
`after` turns each definition, field and constructor in camel case (`inFrame`) to snake case (`in_frame`), and each
dash in the name of a lemma to `_`, but where it joins the names of two definitions (`length-take`). Words of src/
keep their spelling. It stops, and writes nothing, where two names of one file would fall together. tools/port_names.txt lists the names, old and new."""
import collections
import glob
import os
import re
import sys

TOP = os.path.join(os.path.dirname(os.path.abspath(__file__)), "..")
DECLARED = re.compile(r"^\s*(?:abbrev |unfoldable |pub |mutual )*([A-Za-z_][^\s:(){}.,;]*(?:, ?[A-Za-z][^\s:(){}.,;]*)*) :(?=\s)")
WALK = re.compile(r"/Proof(\.antt|/)")
WORD = re.compile(r"[^\s(){}\[\];,.«»|]+")
CAMEL = re.compile(r"^[a-z]\w*[A-Z]")
# words of the library that lemmas are named after
LIBRARY = "length take drop append set get_or all any sum replicate cond map not and or add sub mul div mod zero suc nil cons eqb leb ltb splice first last".split()
# an alias that port.py took for a fact of the library
ODD = {"is_Within": "is_within"}
# a field, a variant or a path that is named as a lemma or an alias of its file: they are told apart where they stand
BESIDE = {"is_within", "is_done", "one_line", "the_code", "every_byte", "no_number", "no_call", "refusal_number"}
# where two names would fall together
APART = {"in_frame": "in_frame_lem", "same_line": "same_line-cond"}


def snake(word):
    return re.sub(r"(?<=[a-z0-9])([A-Z])", lambda m: "_" + m.group(1).lower(), word)


def read(path):
    with open(path, encoding="utf-8") as f:
        return f.read()


def no_comment(text):
    return re.sub(r'--[^\n]*|"[^"\n]*"', " ", text)


def antt():
    for folder in ("specs", "proofs"):
        yield from sorted(glob.glob(f"crates/*/{folder}/**/*.antt", recursive=True))


def names():
    camel, dashed, plain = set(), set(), set()
    for path in antt():
        for line in read(path).split("\n"):
            m = DECLARED.match(line)
            for name in m.group(1).split(",") if m else []:
                name = name.strip()
                if CAMEL.match(name) and "-" not in name:
                    camel.add(name)
                elif "-" in name and not WALK.search(path):
                    dashed.add(name)
                elif "/specs/" in path and "-" not in name:
                    plain.add(name)
    turned = {name: snake(name) for name in camel} | ODD
    known = plain | set(turned.values()) | set(LIBRARY)
    for name in sorted(dashed):
        parts = [snake(p) for p in name.split("-")]
        new = parts[0]
        for before, part in zip(parts, parts[1:]):
            joins = before in known and part in known and not name.endswith("-once")
            new += ("-" if joins else "_") + part
        turned[name] = new + "_lem" if new in turned.values() else new
    return turned, camel | set(ODD)


def turned_text(text, turned, fields, whole):
    def one(m):
        word = m.group(0)
        if word not in turned:
            return word
        behind = m.start() > 0 and m.string[m.start() - 1] == "." and word not in fields
        return word if behind else turned[word]

    return WORD.sub(one, text)


def before():
    path = "crates/cases_desk/proofs/digest/Proof.antt"
    text = read(path)
    with open(path, "w", encoding="utf-8") as f:
        f.write(text.replace("so_far", "sofar"))


def apart(texts):
    """Renames in the named files what would fall together with another name there."""
    for path, old in PLACES:
        texts[path] = re.sub(r"(?<![\w'.-])" + re.escape(old) + r"(?![\w'-])", APART[old], texts[path])


PLACES = [(p, "in_frame") for p in ("crates/promises/proofs/Reached.antt", "crates/promises/proofs/StartedBooks.antt", "crates/promises/proofs/Framed.antt", "crates/rules/proofs/Books.antt")] + [("crates/lots/proofs/BalanceLaws.antt", "same_line")]


def after():
    texts = {path: read(path) for path in antt()}
    apart(texts)
    turned, fields = names()
    fallen = []
    new = {}
    for path, text in texts.items():
        words = set(WORD.findall(no_comment(re.sub(r"(?m)^use \S+\.(?=[{\w])", "", text))))
        into = collections.defaultdict(set)
        for w in words:
            into[turned.get(w, w)].add(w)
        fallen += [f"{path}: {sorted(ws)}" for w, ws in into.items() if len(ws) > 1 and w not in BESIDE]
        new[path] = turned_text(text, turned, fields, True)
    for path in sorted(glob.glob("crates/*/src/**/*.rt", recursive=True)):
        text = read(path)
        new[path] = re.sub(r"(?<![\w'-])[a-z][\w'-]*(?![\w'-])", lambda m: turned.get(m.group(0), m.group(0)), text)
    if fallen:
        print("\n".join(fallen))
        return 1
    for path, text in new.items():
        if text != read(path):
            with open(path, "w", encoding="utf-8") as f:
                f.write(text)
    # the names, for pages and scripts
    with open("tools/port_names.txt", "w", encoding="utf-8") as f:
        f.write("".join(f"{a} {b}\n" for a, b in sorted(turned.items()) if a != b))
    print(f"{len(turned)} names turned")
    return 0


if __name__ == "__main__":
    os.chdir(TOP)
    if sys.argv[1:2] == ["before"]:
        before()
    elif sys.argv[1:2] == ["after"]:
        raise SystemExit(after())
    else:
        print(__doc__)
        raise SystemExit(2)
