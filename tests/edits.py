#!/usr/bin/env python3
"""Reads what the prover says of the must-fail edits; asked to, weakens contracts, and sees who notices.

    python3 tests/edits.py [CRATE..]
    python3 tests/edits.py weaken [--all] [CRATE..]

The first tries each edit of the crates that are named, or of every crate, in a copy. Wrong is an edit that the prover
does not refuse; an edit under which a function that docs/PROMISES.md lists for it stays proved, or which the prover
does not name; and an edit that was refused only because a proof file no longer fits the code, since then nothing was
found to be false. A trait's method stands for that of each type that has the trait: it stays proved where all of them
do. The last line is 'N edits, 0 wrong'.

The second weakens a contract of each crate that is named, or of every crate, in a copy: one clause on the result of a
public function or method, its `ensures` or what a conversion gives, becomes true of every result. A trait's method is
weakened in the trait. It is noticed where a proof fails that is not the function's own, and that does not fail only
because the function is not proved: the lemma in Once.antt, which says that any two results that are allowed coincide.
The first clause of a crate is weakened; with --all each of them, one after the other. A function that is listed with a
lemma, and of which no clause is found, counts as unnoticed. It needs a repository that is proved (`rt check`), and
proves nothing again but the crate (of `rules`, whose lemmas stand in `promises`, all up to there). The last line is
'N weakened, 0 unnoticed'.
"""
import os
import re
import shutil
import subprocess
import sys
import tempfile

from public import CRATES, TOP, functions_of, lemmas_of, libraries, listed, proved_as, text

# An error that only follows from another one.
FOLLOWS = r"was not admitted|, which was rejected, w(as|ere) not checked"

# A proof file that speaks of a step, a name or a field which the edited code has no more, or in another order.
MISFITS = (
    r"that can be named from here",
    r"is not in scope",
    r"has no field",
    r"is expected here",
    r"this is applied to an argument but has type",
    r"`goal\.[^`]*`: module",
    r"differ only where one has `\S*\.Lts\.",
)

# The same in a law, which has no need to answer: its words are not in what it states any more.
LAW_MISFIT = r"no occurrence of the path's"


# What the prover says of a function that is proved.
PROVED = ("proved", "proved where its callers give what it asks")


# ---- what the prover said
def errors_in(said):
    """Each error that does not follow from another: its file, and its first line."""
    for path, line in re.findall(r"^(\S+?):\d+:\d+: error: (.*)$", said, re.M):
        if not re.search(FOLLOWS, line):
            yield path, line


def states_in(said):
    """What became of each function: 'proved', or why not."""
    return dict(re.findall(r"^fn ([\w:]+): (.*)$", said, re.M))


def is_misfit(path, line):
    law = os.path.basename(path) not in ("Invariants.antt", "Answers.antt")
    return any(re.search(misfit, line) for misfit in MISFITS) or bool(law and re.search(LAW_MISFIT, line))


# ---- the edits
def edited(crate, edit):
    """The files that the edit changes, as it makes them."""
    files, name, old = {}, None, None
    for line in text(CRATES, crate, "must-fail", edit + ".edit").split("\n"):
        if line.startswith("file: "):
            name = line.removeprefix("file: ")
        elif line.startswith("old: "):
            old = line.removeprefix("old: ")
        elif line.startswith("new:"):
            before = files.get(name) or text(CRATES, crate, name)
            files[name] = before.replace(old, line.removeprefix("new:").removeprefix(" "))
    return files


def wrong_edit(said, functions):
    if not re.search(r"^logic=not-proved", said, re.M):
        yield "it was not refused by the prover"
        return
    states = states_in(said)
    for name in functions:
        found = [states[own] for own in proved_as(name) if own in states]
        if not found:
            yield f"{name} is not named by the prover"
        elif all(state in PROVED for state in found):
            yield f"{name} stays proved"
    # an edit may rename a step, so that one answer does not fit, and be refused at another for what it says
    errors = list(errors_in(said))
    if errors and all(is_misfit(path, line) for path, line in errors):
        yield f"{errors[0][0]} no longer fits: {errors[0][1][:160]}"


def tried(top, crate, edit):
    """What the prover says of the crate under the edit."""
    before = {}
    for name, source in edited(crate, edit).items():
        before[name] = text(CRATES, crate, name)
        write(os.path.join(top, "crates", crate, name), source)
    said = checked(top, crate)
    for name, source in before.items():
        write(os.path.join(top, "crates", crate, name), source)
    return said


def try_edits(crates):
    wrong, count = [], 0
    with tempfile.TemporaryDirectory() as top:
        copied(top)
        for crate in crates:
            folder = os.path.join(CRATES, crate, "must-fail")
            names = sorted(os.listdir(folder)) if os.path.isdir(folder) else []
            for edit in (name.removesuffix(".edit") for name in names):
                functions = [row[0] for row in listed() if f"{crate}/{edit}" in row[2]]
                wrong += [f"{crate}/{edit}: {what}" for what in wrong_edit(tried(top, crate, edit), functions)]
                count += 1
    return wrong, f"{count} edits, {len(wrong)} wrong"


# ---- contracts weakened
TRUE = "Unit {0}"


def contracts(crate):
    """Each clause on the result of a public function that is listed with a lemma: its name, its file, where the text starts and ends."""
    lemmas = {row[0]: row[1] for row in listed()}
    for name, file, clauses in functions_of(crate):
        for start, end in clauses if lemmas.get(name) else []:
            yield name, file, start, end


def without_contract(crate):
    """The functions of the crate that are listed with a lemma, and of which no clause is found."""
    found = {name for name, _, _, _ in contracts(crate)}
    return [row[0] for row in listed() if row[1] and row[0].split("::")[0] == crate and row[0] not in found]


def checked(top, crate):
    """What `rt check` says of the crate."""
    ran = subprocess.run(["rt", "check"], cwd=os.path.join(top, "crates", crate), stdout=subprocess.PIPE, stderr=subprocess.STDOUT, text=True)
    return ran.stdout


def noticing(said, name):
    """The proofs that fail by themselves, but for the function's own."""
    own = ["/".join(["/proofs", *each.split("::")[1:], ""]) for each in proved_as(name)]
    for file, line in errors_in(said):
        file = file.removeprefix("./")
        if not any(path in "/" + file for path in own):
            yield f"{file} ({line.split(':')[0]})"


def verdicts_in(said):
    """What the prover said of each crate that it checked."""
    return set(re.findall(r"^logic=(proved|not-proved)", said, re.M))


def write(path, source):
    with open(path, "w", encoding="utf-8") as file:
        file.write(source)


def weakened(top, crate, every):
    """Each contract that is weakened, with who notices it."""
    home, _ = lemmas_of(crate)
    found = list(contracts(crate))[: None if every else 1]
    if found and verdicts_in(checked(top, home)) != {"proved"}:
        sys.exit(f"{home} is not proved as it is")
    for name, file, start, end in found:
        source = os.path.join(top, "crates", crate, "src", file)
        before = text(source)
        write(source, before[:start] + TRUE + before[end:])
        said = checked(top, home)
        write(source, before)
        if not verdicts_in(said):
            sys.exit(f"{crate}: {file} with a weaker contract did not reach the prover:\n{said[:2000]}")
        line = before.count("\n", 0, start) + 1
        yield f"{name} ({file}:{line})", sorted(set(noticing(said, name)))


def copied(top):
    """The repository, with what earlier checks kept."""
    shutil.copy(os.path.join(TOP, "crates.txt"), top)
    shutil.copytree(CRATES, os.path.join(top, "crates"))


def weaken(crates, every):
    wrong, count = [name for crate in crates for name in without_contract(crate)], 0
    for name in wrong:
        print(f"{name}: no clause on its result is found", flush=True)
    with tempfile.TemporaryDirectory() as top:
        copied(top)
        for crate in crates:
            for name, by in weakened(top, crate, every):
                print(f"{name}: noticed by {', '.join(by)}" if by else f"{name}: nothing notices", flush=True)
                wrong += [] if by else [name]
                count += 1
    return wrong, f"{count} weakened, {len(wrong)} unnoticed"


def main():
    words = sys.argv[1:]
    weakens = words[:1] == ["weaken"]
    named = [word for word in words[weakens:] if word != "--all"]
    if not set(named) <= set(libraries()):
        sys.exit(f"not a library of crates.txt: {' '.join(sorted(set(named) - set(libraries())))}\n{__doc__}")
    if weakens:
        wrong, last = weaken(named or libraries(), "--all" in words)
    else:
        wrong, last = try_edits(named or libraries())
        for line in wrong:
            print(line)
    print(last)
    sys.exit(1 if wrong else 0)


if __name__ == "__main__":
    main()
