"""Histories, and the questions put to them: makes the data and the expected output
of crates/cases_history.

    python3 tests/cases/history.py       writes src/data.rt and stdout of that crate

The program under test has no part in this: the output comes from tests/reference.
The histories are made by the rule in `record` below, which the program follows too;
a case is a history with at most one number changed, and how many rows the tables
have that trace is lent. For each case: the reply and number of four questions for a
provenance, then for four nonces the reply of the trace, its piece count, and a
digest of each lent table afterwards.
"""
import os
import sys

HERE = os.path.dirname(os.path.abspath(__file__))
sys.path.insert(0, os.path.join(HERE, "..", "reference"))
from frame import FlatBook, call_on_book, history_fault, trace_on_book  # noqa: E402

CRATE = os.path.join(HERE, "..", "..", "crates", "cases_history")
CEILING = 10 ** 15
WIDTH = 5
NONE = 1024 * WIDTH  # a place past the table: nothing is changed
RECORDS = {1: 1001, 2: 1024, 3: 6, 4: 1024, 5: 0}


def record(history, i):
    if history == 1:  # 400 lots go back and forth whole, 600 times, and then pay
        if i < 400:
            return [1, 3, 1, 2, i + 1]
        if i < 1000:
            return [2, 3, 400, 2, 4] if i % 2 == 0 else [2, 3, 400, 4, 2]
        return [3, 3, 400, 2, 7]
    if history == 2:  # two members pay each other back and forth, splitting as they go
        if i < 2:
            return [1, 3, 1000, 2 + 2 * i, i + 1]
        if i < 1023:
            x = 1 + (i - i % 2) * 37 % 499
            return [2, 3, x, 2, 4] if i % 2 == 0 else [2, 3, x, 4, 2]
        return [3, 3, 500, 2, 9]
    if history == 3:  # one of each kind
        if i == 0:
            return [1, 3, 500, 2, 1]
        if i == 1:
            return [2, 3, 50, 2, 5]
        if i == 2:
            return [3, 3, 100, 2, 7]
        if i == 3:
            return [3, 3, 50, 2, 8]
        if i == 4:
            return [4, 5, 1, 1, 2]
        return [1, 3, 40, 6, 4]
    # all members and assets, 1,024 records
    m, a = i // 4 % 16 + 1, i // 4 % 8 + 1
    if i % 4 == 0:
        return [1, a, 100, m, i + 1]
    if i % 4 == 1:
        return [2, a, 60, m, m % 16 + 1]
    if i % 4 == 2:
        return [3, a, 30, m, 7]
    return [1, a, 5, m, i + 1]


def at(row, place, value):
    return (3, row * WIDTH + place, value, 1024, 1024)


# history, changed place, its number, rows of the work table, rows of the pieces table
CASES = [
    (1, NONE, 0, 1024, 1024), (1, NONE, 0, 1001, 1001), (1, NONE, 0, 1000, 1024), (1, NONE, 0, 1024, 1000),
    (2, NONE, 0, 1024, 1024), (2, NONE, 0, 1023, 1024), (4, NONE, 0, 1024, 1024), (5, NONE, 0, 0, 0),
    (3, NONE, 0, 1024, 1024), (3, NONE, 0, 6, 6), (3, NONE, 0, 5, 6), (3, NONE, 0, 6, 5), (3, NONE, 0, 0, 0),
    # the last of 1,024 records: the whole history is tested
    (2, 1023 * WIDTH + 2, 2001, 1024, 1024), (4, 1023 * WIDTH, 5, 1024, 1024),
    # a bad kind
    at(0, 0, 0), at(4, 0, 5), at(5, 0, 2 ** 64 - 1),
    # a claim: asset, amount, member, deposit number
    at(5, 1, 0), at(5, 1, 9), at(5, 2, 0), at(5, 2, CEILING + 1), at(5, 3, 0), at(5, 3, 17), at(5, 4, 0),
    at(5, 4, 2 ** 32), at(5, 4, 2 ** 32 - 1), at(5, 2, CEILING),
    # a transfer: asset, amount, members, equal members, less than the amount
    at(1, 1, 0), at(1, 2, 0), at(1, 3, 0), at(1, 4, 17), at(1, 4, 2), at(1, 2, 501), at(1, 3, 6), at(1, 2, 351), at(1, 2, 350),
    # a withdrawal: asset, amount, member, payee, less than the amount
    at(2, 1, 4), at(2, 2, 0), at(2, 3, 0), at(2, 4, 0), at(2, 4, 65536), at(2, 2, 451), at(3, 2, 351), at(3, 2, 350),
    # a grant: domain, amount 1, members, equal members, a domain that is another's
    at(4, 1, 0), at(4, 1, 9), at(4, 2, 2), at(4, 3, 0), at(4, 4, 17), at(4, 4, 1), at(4, 3, 3),
]
QUESTIONS = [(2, 3), (4, 3), (17, 3), (2, 9)]
NONCES = [0, 1, 255, 2 ** 64 - 1]


HEAD = """// Made by tests/cases/history.py: the cases.

// The rules by which a history is made.
#[derive(Clone, Copy, PartialEq, Eq)]
pub enum Rule {
    // 400 lots go back and forth whole, 600 times, and then pay.
    Whole,
    // Two members pay each other back and forth, splitting as they go.
    Split,
    // One of each kind.
    Each,
    // All members and assets.
    Everyone,
    // No record at all.
    Nothing,
}

// A history, the place of a number of it that is changed, that number, and how many rows the work table and the
// pieces table have.
pub type Case = (Rule, usize, u64, usize, usize);

"""
RULES = {1: "Whole", 2: "Split", 3: "Each", 4: "Everyone", 5: "Nothing"}


def case_text(case):
    history, place, value, work_rows, piece_rows = case
    return f"(Rule::{RULES[history]}, {place}, {value}, {work_rows}, {piece_rows})"


def digest(table):
    total = 0
    for value in table:
        total = (total * 31 + value % 1000003) % 1000003
    return total


def line(case):
    history, place, value, work_rows, piece_rows = case
    table = [n for i in range(1024) for n in record(history, i)] if history != 5 else [0] * NONE
    if place < NONE:
        table[place] = value
    flat = FlatBook(history=table, history_count=RECORDS[history])
    out = []
    for member, asset in QUESTIONS:
        reply, values, _book = call_on_book(flat, ("provenance", member, asset))
        out += [reply, values[0] if values else 0]
    for nonce in NONCES:
        work = [7] * (4 * work_rows)
        pieces = [9] * (4 * piece_rows)
        reply, values, work, pieces = trace_on_book(flat, nonce, work, pieces)
        out += [reply, values[0] if values else 0, digest(work), digest(pieces)]
    return out


def main():
    for history in (1, 2, 3, 4):
        table = [n for i in range(1024) for n in record(history, i)]
        assert history_fault(FlatBook(history=table, history_count=RECORDS[history])) is None, history
    with open(os.path.join(CRATE, "src", "data.rt"), "w") as out:
        out.write(HEAD)
        out.write(f"pub static CASES: [Case; {len(CASES)}] = [{', '.join(case_text(c) for c in CASES)}];\n")
    replies = set()
    with open(os.path.join(CRATE, "stdout"), "w") as out:
        for k, case in enumerate(CASES):
            numbers = line(case)
            replies |= {numbers[i] for i in (0, 2, 4, 6, 8, 12, 16, 20)}
            out.write("\t".join(str(n) for n in [k] + numbers) + "\n")
    print("replies", sorted(replies))


if __name__ == "__main__":
    main()
