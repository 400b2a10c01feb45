"""Books that no session reaches, and the eight calls on each: makes the data and
the expected output of crates/cases_desk.

    python3 tests/cases/desk.py          writes src/data.rt and stdout of that crate

The program under test has no part in this: the output comes from tests/reference.
A book is the sample below with some of its numbers changed. Every call is made on
every book, fresh each time, and a line is written for it: the book's number, the
call's number, the reply number, a digest of every number of the desk and of the
three tables afterwards, unused rows and one row past the end too, and what a sign
request is answered then: 2 where a Done has left the frame.
"""
import copy
import os
import sys

HERE = os.path.dirname(os.path.abspath(__file__))
sys.path.insert(0, os.path.join(HERE, "..", "reference"))
from frame import FlatBook, call_on_book  # noqa: E402

CRATE = os.path.join(HERE, "..", "..", "crates", "cases_desk")
CEILING = 10 ** 15
DESK, INBOX, OUTBOX, HISTORY, SIZE = 0, 1, 2, 3, 4
# places of the desk's numbers: balances from 0, holders from 128, lifetime from
# 136, settled from 144, then the counters and the counts
HOLDER, LIFETIME, SETTLED, LAST, NEXT, UNCLAIMED, PAYMENTS, INFLIGHT, RECORDS = (
    128, 136, 144, 152, 153, 154, 155, 156, 157)
ROWS = {INBOX: 64, OUTBOX: 32, HISTORY: 1024}
WIDTH = {INBOX: 4, OUTBOX: 4, HISTORY: 5}
EXACT = {t: ROWS[t] * WIDTH[t] for t in ROWS}
FULL = {t: EXACT[t] + WIDTH[t] for t in ROWS}  # one row past the end


def cell(table, at, k, value):
    return (table, at * WIDTH[table] + k, value)


def row(table, at, *values):
    return [cell(table, at, k, v) for k, v in enumerate(values)]


# member 2 has 300 in asset 3 that no record accounts for; deposits 4 and 6 wait;
# nonces 7 (in flight) and 8; one record; rows past the used ones hold 9s
SAMPLE = (
    [(DESK, HOLDER + k, 1) for k in range(8)]
    + [(DESK, (2 - 1) * 8 + (3 - 1), 300), (DESK, HOLDER + 4, 2), (DESK, LIFETIME + 2, 900),
     (DESK, SETTLED + 2, 100), (DESK, LAST, 6), (DESK, NEXT, 9), (DESK, UNCLAIMED, 2),
     (DESK, PAYMENTS, 2), (DESK, INFLIGHT, 1), (DESK, RECORDS, 1)]
    + row(INBOX, 0, 4, 3, 50, 2) + row(INBOX, 1, 6, 3, 70, 5) + row(INBOX, 2, 9, 9, 9, 9)
    + row(INBOX, 64, 9, 9, 9, 9)
    + row(OUTBOX, 0, 3, 40, 7, 7) + row(OUTBOX, 1, 3, 60, 8, 8) + row(OUTBOX, 2, 9, 9, 9, 9)
    + row(OUTBOX, 32, 9, 9, 9, 9)
    + row(HISTORY, 0, 1, 3, 300, 2, 1) + row(HISTORY, 1, 9, 9, 9, 9, 9) + row(HISTORY, 1024, 9, 9, 9, 9, 9))


def full_inbox():
    return [e for i in range(64) for e in row(INBOX, i, i + 1, 3, 1, 2)] + [
        (DESK, UNCLAIMED, 64), (DESK, LAST, 64)]


def full_outbox():
    return [e for i in range(32) for e in row(OUTBOX, i, 3, 1, 7, i)] + [
        (DESK, PAYMENTS, 32), (DESK, NEXT, 32)]


CASES = [
    ("the sample itself", []),
    ("a full inbox", full_inbox()),
    ("a full outbox", full_outbox()),
    ("a full history", [(DESK, RECORDS, 1024)]),
    ("lifetime deposits at the ceiling", [(DESK, LIFETIME + 2, CEILING)]),
    ("nothing in flight", [(DESK, INFLIGHT, 0)]),
    ("nothing waiting", [(DESK, INFLIGHT, 2)]),
    ("empty tables", [(DESK, UNCLAIMED, 0), (DESK, PAYMENTS, 0), (DESK, INFLIGHT, 0), (DESK, RECORDS, 0)]),
    ("a balance at the ceiling: a Done claim leaves the frame", [(DESK, 10, CEILING)]),
    ("settled at the ceiling: a Done settle leaves the frame", [(DESK, SETTLED + 2, CEILING)]),
    ("next nonce 1,024: a Done withdrawal leaves the frame",
     [(DESK, NEXT, 1024), cell(OUTBOX, 0, 3, 1022), cell(OUTBOX, 1, 3, 1023)]),
    ("an inbox one row short", [(SIZE, INBOX, EXACT[INBOX] - WIDTH[INBOX])]),
    ("an inbox one row too long", [(SIZE, INBOX, FULL[INBOX])]),
    ("an outbox one row short", [(SIZE, OUTBOX, EXACT[OUTBOX] - WIDTH[OUTBOX])]),
    ("an outbox one row too long", [(SIZE, OUTBOX, FULL[OUTBOX])]),
    ("a history one row short", [(SIZE, HISTORY, EXACT[HISTORY] - WIDTH[HISTORY])]),
    ("a history one row too long", [(SIZE, HISTORY, FULL[HISTORY])]),
    ("no inbox at all", [(SIZE, INBOX, 0)]),
    ("an inbox count above its rows", [(DESK, UNCLAIMED, 65)]),
    ("an inbox count far above its rows", [(DESK, UNCLAIMED, 2 ** 64 - 1)]),
    ("an outbox count above its rows", [(DESK, PAYMENTS, 33)]),
    ("a history count above its rows", [(DESK, RECORDS, 1025)]),
    ("more in flight than in the outbox", [(DESK, INFLIGHT, 3)]),
    ("a balance one above the ceiling", [(DESK, 127, CEILING + 1)]),
    ("a lifetime total one above the ceiling", [(DESK, LIFETIME, CEILING + 1)]),
    ("a settled total one above the ceiling", [(DESK, SETTLED + 7, CEILING + 1)]),
    ("an unclaimed deposit for member 17", [cell(INBOX, 1, 3, 17)]),
    ("an unclaimed deposit of asset 9", [cell(INBOX, 1, 1, 9)]),
    ("an unclaimed deposit of nothing", [cell(INBOX, 1, 2, 0)]),
    ("a payment of asset 0", [cell(OUTBOX, 1, 0, 0)]),
    ("a payment above the ceiling", [cell(OUTBOX, 1, 1, CEILING + 1)]),
    ("a payment to payee 65,536", [cell(OUTBOX, 1, 2, 65536)]),
    ("inbox numbers equal", [cell(INBOX, 1, 0, 4)]),
    ("inbox numbers falling", [cell(INBOX, 1, 0, 3)]),
    ("an inbox number 0", [cell(INBOX, 0, 0, 0)]),
    ("an inbox number above the last", [cell(INBOX, 1, 0, 7)]),
    ("nonces with a hole", [cell(OUTBOX, 0, 3, 6)]),
    ("nonces that end too early", [(DESK, NEXT, 10)]),
    ("fewer nonces given than payments", [(DESK, NEXT, 1)]),
    ("last deposit number 4,294,967,296", [(DESK, LAST, 2 ** 32)]),
    ("last deposit number 2^64 - 1", [(DESK, LAST, 2 ** 64 - 1)]),
    ("next nonce 1,025", [(DESK, NEXT, 1025), cell(OUTBOX, 0, 3, 1023), cell(OUTBOX, 1, 3, 1024)]),
    ("a holder 0", [(DESK, HOLDER, 0)]),
    ("a holder 17", [(DESK, HOLDER + 7, 17)]),
]

CALLS = [
    ("deposit", 7, 3, 5, 4), ("deposit", 7, 3, 5, 17), ("deposit", 7, 9, 5, 4), ("deposit", 7, 3, 0, 4),
    ("deposit", 6, 3, 5, 4), ("deposit", 8, 3, 5, 4), ("deposit", 2 ** 64 - 1, 3, 5, 4),
    ("deposit", 65, 3, 5, 4), ("deposit", 7, 3, CEILING - 900, 4), ("deposit", 7, 3, CEILING - 899, 4),
    ("claim", 2, 4, 3, 50), ("claim", 5, 6, 3, 70), ("claim", 5, 4, 3, 50), ("claim", 0, 4, 3, 50),
    ("claim", 2, 4, 0, 50), ("claim", 2, 4, 3, CEILING + 1), ("claim", 2, 1, 3, 1),
    ("transfer", 2, 4, 3, 300), ("transfer", 2, 4, 3, 301), ("transfer", 2, 2, 3, 1), ("transfer", 2, 17, 3, 1),
    ("transfer", 2, 4, 9, 1), ("transfer", 2, 4, 3, 0),
    ("withdraw", 2, 3, 300, 77), ("withdraw", 2, 3, 301, 77), ("withdraw", 2, 3, 1, 0), ("withdraw", 2, 3, 1, 65536),
    ("withdraw", 0, 3, 1, 77), ("withdraw", 2, 0, 1, 77), ("withdraw", 2, 3, 2 ** 64 - 1, 77),
    ("send",), ("settle", 7), ("settle", 8), ("settle", 0), ("settle", 1022),
    ("grant", 2, 3, 5), ("grant", 1, 3, 5), ("grant", 2, 2, 5), ("grant", 2, 17, 5), ("grant", 2, 3, 9),
    ("sign", 2, 5), ("sign", 1, 5), ("sign", 17, 5), ("sign", 2, 0),
]


HEAD = """// Made by tests/cases/desk.py: the books and the calls.
use rules::calls::{Call, ClaimFields, GrantFields, SignFields, TransferFields, WithdrawalFields};
use rules::rows::{Deposit, DepositNumber, Nonce};

// What an edit changes: a number of one of the desk's lists, of its counters and counts or of a table, or how many
// numbers of a table are lent.
#[derive(Clone, Copy, PartialEq, Eq)]
pub enum Part {
    Balances,
    Holders,
    Lifetime,
    Settled,
    Counts,
    Inbox,
    Outbox,
    History,
    InboxSize,
    OutboxSize,
    HistorySize,
}

pub type Edit = (u64, Part, usize, u64);

"""
TABLES = {INBOX: "Inbox", OUTBOX: "Outbox", HISTORY: "History"}
LISTS = [(0, "Balances"), (HOLDER, "Holders"), (LIFETIME, "Lifetime"), (SETTLED, "Settled"), (LAST, "Counts")]
FORMS = {
    "deposit": "Call::Deposit(Deposit {{ number: DepositNumber({}), asset: {}, amount: {}, member: {} }})",
    "claim": "Call::Claim(ClaimFields {{ member: {}, number: DepositNumber({}), asset: {}, amount: {} }})",
    "transfer": "Call::Transfer(TransferFields {{ from: {}, to: {}, asset: {}, amount: {} }})",
    "withdraw": "Call::Withdraw(WithdrawalFields {{ member: {}, asset: {}, amount: {}, payee: {} }})",
    "send": "Call::Send",
    "settle": "Call::Settle(Nonce({}))",
    "grant": "Call::Grant(GrantFields {{ from: {}, to: {}, domain: {} }})",
    "sign": "Call::Sign(SignFields {{ member: {}, domain: {} }})",
}


def call_text(call):
    return FORMS[call[0]].format(*call[1:])


def edit_text(edit):
    book, table, at, value = edit
    if table == SIZE:
        part, place = TABLES[at] + "Size", 0
    elif table == DESK:
        begin, part = [entry for entry in LISTS if entry[0] <= at][-1]
        place = at - begin
    else:
        part, place = TABLES[table], at
    return f"({book}, Part::{part}, {place}, {value})"


def built(edits):
    desk = [0] * 158
    tables = {t: [0] * n for t, n in FULL.items()}
    size = dict(EXACT)
    for table, at, value in SAMPLE + edits:
        if table == DESK:
            desk[at] = value
        elif table == SIZE:
            size[at] = value
        else:
            tables[table][at] = value
    return desk, tables, size


def digest(desk, tables):
    total = 0
    for value in desk + tables[INBOX] + tables[OUTBOX] + tables[HISTORY]:
        total = (total * 31 + value % 1000003) % 1000003
    return total


def called(edits, call):
    desk, tables, size = built(edits)
    lent = {t: tables[t][:size[t]] for t in tables}
    flat = FlatBook(
        balances=desk[:128], holders=desk[128:136], lifetime=desk[136:144], settled=desk[144:152],
        last_deposit=desk[LAST], next_nonce=desk[NEXT], inbox_count=desk[UNCLAIMED],
        outbox_count=desk[PAYMENTS], in_flight=desk[INFLIGHT], history_count=desk[RECORDS],
        inbox=lent[INBOX], outbox=lent[OUTBOX], history=lent[HISTORY])
    reply, _values, after = call_on_book(copy.deepcopy(flat), call)
    desk = (after.balances + after.holders + after.lifetime + after.settled
            + [after.last_deposit, after.next_nonce, after.inbox_count, after.outbox_count,
               after.in_flight, after.history_count])
    for table, new in ((INBOX, after.inbox), (OUTBOX, after.outbox), (HISTORY, after.history)):
        tables[table][:len(new)] = new
    return reply, digest(desk, tables), call_on_book(after, ("sign", 2, 5))[0]


def main():
    edits = [(0, *e) for e in SAMPLE] + [(k, *e) for k, (_n, es) in enumerate(CASES, 1) for e in es]
    with open(os.path.join(CRATE, "src", "data.rt"), "w") as out:
        out.write(HEAD)
        out.write(f"pub const BOOKS: u64 = {len(CASES)};\n\n// The calls.\n")
        out.write(f"pub static CALLS: [Call; {len(CALLS)}] = [{', '.join(call_text(c) for c in CALLS)}];\n\n")
        out.write("// The edits that make the books: book (0: all of them), part, place and number each.\n")
        out.write(f"pub static EDITS: [Edit; {len(edits)}] = [{', '.join(edit_text(e) for e in edits)}];\n")
    with open(os.path.join(CRATE, "stdout"), "w") as out:
        replies = {}
        for k, (_name, es) in enumerate(CASES, 1):
            for c, call in enumerate(CALLS, 1):
                reply, after, then = called(es, call)
                replies.setdefault(call[0], set()).add(reply)
                out.write(f"{k}\t{c}\t{reply}\t{after}\t{then}\n")
    for word in FORMS:
        print(word, sorted(replies[word]))


if __name__ == "__main__":
    main()
