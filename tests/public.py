#!/usr/bin/env python3
"""Holds the list of public functions in docs/PROMISES.md to the sources.

    python3 tests/public.py

Every public function and method of a library, every method of a public trait and every conversion (`From`, `TryFrom`)
stands in the list once and has a contract on its result, an `ensures` or what a conversion gives; every function that
is listed is there; the lemma that says that any two allowed results coincide stands in its crate's proofs/Once.antt
(of the conversions of `rules`, in proofs/RecordsOnce.antt of `promises`), over the contract that the checker makes of
that function, and a lemma that leaves something open is one of those that docs/DECISIONS.md lists; every must-fail
edit that is named is there, and every edit is named but those of definitions (specs/ of `rules` and `promises`). A dash
stands for an exception, which docs/DECISIONS.md explains. The last line is 'N functions, 0 wrong'.
"""
import os
import re
import sys

TOP = os.path.join(os.path.dirname(os.path.abspath(__file__)), "..")
CRATES = os.path.join(TOP, "crates")


def text(*path):
    with open(os.path.join(*path), encoding="utf-8") as file:
        return file.read()


def public_modules(crate):
    """The files whose `pub fn` can be named from outside: lib.rt and those it declares `pub mod`."""
    lib = text(CRATES, crate, "src", "lib.rt")
    return ["lib"] + re.findall(r"^pub mod (\w+);", lib, re.M)


def blocks_of(source):
    """The parts of a file whose functions are public: the file itself, each `impl` of a type, each public trait. Of each
    whose it is, what a function there opens with, and where it starts and ends."""
    yield None, "pub fn", 0, len(source)
    for found in re.finditer(r"^impl(?:<[^>]*>)? (\w+)(?:<[^>]*>)? \{$(.*?)^\}$", source, re.M | re.S):
        yield found[1], "    pub fn", *found.span(2)
    for found in re.finditer(r"^pub trait (\w+)[^{]*\{$(.*?)^\}$", source, re.M | re.S):
        yield found[1], "    fn", *found.span(2)


def impls_of(source):
    """Each `impl` of a trait for a type: the trait, the name that the prover gives it, and where it starts and ends.
    `impl From<ClaimFields> for Record` is RecordFromClaimFields."""
    for found in re.finditer(r"^impl(?:<[^>]*>)? (\w+)(?:<([^\n]*)>)? for (\w+)(?:<[^>]*>)? \{$(.*?)^\}$", source, re.M | re.S):
        given = "".join(word[0].upper() + word[1:] for word in re.findall(r"\w+", found[2] or ""))
        yield found[1], found[3] + found[1] + given, *found.span(4)


def clauses_in(source, start, end):
    """Each clause on a result, `ensures` or what a conversion gives: where what it says starts and ends."""
    opens = re.compile(r"^ +(?:ensures (?:\w+ )?\{|ghost (?:try_)?from_gives = \{ λ [^.]*\.)\s*", re.M)
    for found in opens.finditer(source, start, end):
        depth, at = 1, found.end()
        while depth:
            depth += {"{": 1, "}": -1}.get(source[at], 0)
            at += 1
        yield found.end(), len(source[: at - 1].rstrip())


def functions_of(crate):
    """Each public function of a library: its name, its file, and where the clauses on its result stand there."""
    for module in public_modules(crate):
        file = module + ".rt"
        source = text(CRATES, crate, "src", file)
        for owner, opens, start, end in blocks_of(source):
            for found in re.compile(rf"^{opens} (\w+)", re.M).finditer(source, start, end):
                body = re.compile(r"\n *\{\n|;\n|\) *(?:-> [^\n]*)?\{\n").search(source, found.start(), end)
                yield path_of(crate, module, owner, found[1]), file, list(clauses_in(source, found.start(), body.start()))
        for trait, owner, start, end in impls_of(source):
            if trait in ("From", "TryFrom"):
                method = re.compile(r"^    fn (\w+)", re.M).search(source, start, end)[1]
                yield path_of(crate, module, owner, method), file, list(clauses_in(source, start, end))


def path_of(crate, module, owner, function):
    return "::".join([crate] + ([] if module in ("lib", "main") else [module]) + ([owner] if owner else []) + [function])


def proved_as(name):
    """The names by which the prover speaks of a function that is listed: its own, and of a trait's method that of each
    type of the crate which has the trait."""
    crate, owner, method = name.split("::")[0], *name.split("::")[-2:]
    yield name
    for file in sorted(os.listdir(os.path.join(CRATES, crate, "src"))):
        for trait, instance, _, _ in impls_of(text(CRATES, crate, "src", file)):
            if trait == owner:
                yield path_of(crate, file.removesuffix(".rt"), instance, method)


def libraries():
    names = re.findall(r"^(\w+):", text(TOP, "crates.txt"), re.M)
    return [name for name in names if os.path.exists(os.path.join(CRATES, name, "src", "lib.rt"))]


def listed():
    """The rows of the list: function, lemma, edits."""
    part = text(TOP, "docs", "PROMISES.md").split("## Every public function")[1].split("\n## ")[0]
    for row in re.findall(r"^\| `(\w+(?:::\w+)+)` \| (.*?) \| (.*?) \|$", part, re.M):
        yield row[0], re.findall(r"`([^`]+)`", row[1]), re.findall(r"`([^`]+)`", row[2]), row


def lemmas_of(crate):
    """Where the lemmas over a crate's contracts stand: the crate, and the file in its proofs/."""
    return ("promises", "RecordsOnce.antt") if crate == "rules" else (crate, "Once.antt")


def form_of(name, lemma):
    """How the lemma is stated over the function's own contract: Coincide, or AnyTwo, which leaves something open."""
    crate, path = name.split("::", 1)
    home, file = lemmas_of(crate)
    once = text(CRATES, home, "proofs", file)
    own = re.search(rf"^use Rattle\.{crate}\.specs\.contracts\.{path.replace('::', '.')} as (\S+)$", once, re.M)
    if own and "\nuse Rattle.rules.specs.Coincide.{" in once:
        name = re.escape(own[1])
        # a generic function's contract is held at every type: the lemma names its parameters
        for form in ("Coincide", "AnyTwo"):
            contract = rf"\(?{name}\.ended([^()]*)\)? \(λ M 𝓤 𝓛\. {name}\.clauses\1 𝓛\)"
            said = re.search(rf"^ *pub {lemma} : {form} {contract}{'$' if form == 'Coincide' else ' '}", once, re.M)
            if said and all(f"({word} : _)" in once for word in said[1].split()):
                return form
    return None


def left_open():
    """The functions of which docs/DECISIONS.md says what their contract leaves open."""
    part = text(TOP, "docs", "DECISIONS.md").split("## What a contract leaves open")[1].split("\n## ")[0]
    return {"::".join(re.findall(r"`([^`]+)`", cell)) for cell in re.findall(r"^\| (`.*?) \|", part, re.M)}


def all_edits():
    for crate in libraries():
        folder = os.path.join(CRATES, crate, "must-fail")
        if os.path.isdir(folder):
            for name in os.listdir(folder):
                yield f"{crate}/{name.removesuffix('.edit')}"


def is_of_definitions(edit):
    """Whether an edit changes definitions of `rules` or `promises`, and no code: such an edit stands in no list."""
    crate, name = edit.split("/")
    files = re.findall(r"^file: (.*)$", text(CRATES, crate, "must-fail", name + ".edit"), re.M)
    return crate in ("rules", "promises") and all(file.startswith("specs/") for file in files)


def wrong_rows(there, edits):
    seen = set()
    for name, lemmas, named, row in listed():
        if name in seen:
            yield f"{name}: listed twice"
        seen.add(name)
        if name not in there:
            yield f"{name}: listed, and no such public function"
        for lemma in lemmas:
            form = form_of(name, lemma)
            if form is None:
                yield f"{name}: no {lemma} over its contract in {'/proofs/'.join(lemmas_of(name.split('::')[0]))}"
            if form == "AnyTwo" and name not in left_open():
                yield f"{name}: {lemma} leaves something open that docs/DECISIONS.md does not list"
        if not lemmas and row[1] != "–":
            yield f"{name}: neither a lemma nor a dash"
        for edit in named:
            if edit not in edits:
                yield f"{name}: no edit {edit}"
        if not named and row[2] != "–":
            yield f"{name}: neither an edit nor a dash"
        if name in there and not there[name]:
            yield f"{name}: no contract on its result"
    for name in there:
        if name not in seen:
            yield f"{name}: not listed"


def main():
    there = {name: clauses for crate in libraries() for name, _, clauses in functions_of(crate)}
    edits = set(all_edits())
    wrong = list(wrong_rows(there, edits))
    named = {edit for row in listed() for edit in row[2]}
    wrong += [f"{edit}: named for no function" for edit in sorted(edits - named) if not is_of_definitions(edit)]
    for line in wrong:
        print(line)
    print(f"{len(there)} functions, {len(wrong)} wrong")
    sys.exit(1 if wrong else 0)


if __name__ == "__main__":
    main()
