#!/usr/bin/env python3
"""Self-checks of the reference: python3 check.py

Every check asserts something that document 01 says, or a request of document 02;
the last line counts them.
"""
import io
import random
import subprocess
import sys
from collections import Counter, defaultdict, deque
from pathlib import Path

from book import (
    ASSETS, CEILING, CLAIM, DONE, FIELDS, GRANT, LAST_NUMBER, LAST_U64, MEMBERS,
    TRANSFER, WITHDRAWAL, Book, provenance_of, read_line, run, step)
from frame import (
    FlatBook, call_on_book, frame_fault, history_fault, in_frame, load, rows, store,
    trace_on_book)
from sessions import MALFORMED_KINDS, POSSIBLE, cover, session

checks = failed = 0


def check(name, found, expected=True):
    global checks, failed
    checks += 1
    if found != expected:
        failed += 1
        print(f"FAILED {name}: found {found!r}, expected {expected!r}")


# Small helpers.  Sessions are written with blanks for tabs, as in the document.

def output_of(data):
    sink = io.BytesIO()
    run(io.BytesIO(data), sink)
    return sink.getvalue()


def call_of(text):
    call, _field = read_line(text.replace(" ", "\t").encode() + b"\n")
    assert call, text
    return call


def replies(*texts):
    """The replies of these calls on an empty book."""
    return replies_on(Book(), *texts)


def replies_on(book, *texts):
    return [step(book, call_of(text))[0] for text in texts]


def calls_of(seed, lines):
    """The calls of a session, without its malformed lines."""
    return [call for line in io.BytesIO(session(seed, lines)) if (call := read_line(line)[0])]


def reached(*texts):
    """The flat book reached from an empty one by these calls, all Done."""
    flat = FlatBook()
    for text in texts:
        reply, _, flat = call_on_book(flat, call_of(text))
        assert reply == DONE, text
    return flat


def changed(flat, **numbers):
    """A copy of the book with some numbers changed: name=value, or
    name=(place, value) for one place of a list."""
    flat = FlatBook(**{name: list(value) if isinstance(value, list) else value
                       for name, value in vars(flat).items()})
    for name, value in numbers.items():
        if isinstance(value, tuple):
            getattr(flat, name)[value[0]] = value[1]
        else:
            setattr(flat, name, value)
    return flat


# ---------------------------------------------------------------- the document

DOCUMENT_SESSION = """\
deposit 1 3 500 2       | 1 0
deposit 2 3 300 4       | 2 0
claim 2 1 3 500         | 3 0
transfer 2 4 3 200      | 4 0
claim 4 2 3 300         | 5 0
withdraw 4 3 350 77     | 6 0
withdraw 2 3 301 77     | 7 14
send                    | 8 0 0 3 350 77
settle 1                | 9 19
settle 0                | 10 0
trace 0                 | 11 0 2 1 200 2 150
deposit 4 3 10 2        | 12 10
deposit 3 3 (empty) 2   | 13 1 3
                        | end 9 4
"""


def tabbed(text):
    return text.strip().replace(" ", "\t").replace("(empty)", "").encode() + b"\n"


def check_document_session():
    pairs = [line.split("|") for line in DOCUMENT_SESSION.splitlines()]
    given = b"".join(tabbed(left) for left, _ in pairs if left.strip())
    expected = b"".join(tabbed(right) for _, right in pairs)
    check("document session", output_of(given), expected)
    program = subprocess.run([sys.executable, Path(__file__).with_name("book.py")],
                             input=given, capture_output=True, check=True)
    check("document session, as a program", program.stdout, expected)
    check("empty input", output_of(b""), b"end\t0\t0\n")


def check_p_cases():
    check("P1", replies("claim 2 1 3 500"), [13])
    check("P2", replies(f"deposit 1 3 {CEILING} 2", "deposit 2 3 1 2"), [0, 11])
    check("P2 another asset", replies(f"deposit 1 3 {CEILING} 2", "deposit 2 4 1 2"), [0, 0])
    check("P3", replies("deposit 1 3 0 2", "claim 2 1 3 0", "transfer 2 4 3 0",
                        "withdraw 2 3 0 77"), [6, 6, 6, 6])
    check("P4", replies("deposit 0 3 5 2", "deposit 2 3 5 2"), [9, 10])
    check("P5", replies("transfer 2 2 3 5"), [8])
    check("P6", replies("deposit 1 3 5 17", "claim 17 1 3 5", "transfer 17 1 3 5",
                        "transfer 1 17 3 5", "withdraw 17 3 5 77", "grant 17 1 5",
                        "grant 1 17 5", "sign 17 5"), [3] * 8)
    have_300 = ("deposit 1 3 300 2", "claim 2 1 3 300")
    check("P7", replies(*have_300, "withdraw 2 3 300 77"), [0, 0, 0])
    check("P8", replies(*have_300, "withdraw 2 3 301 77"), [0, 0, 14])
    check("P9", replies("sign 1 5", "sign 2 5"), [0, 15])
    check("P10", replies("grant 1 2 5", "sign 1 5", "sign 2 5"), [0, 15, 0])
    check("P11", replies("send", "settle 0"), [18, 19])
    check("P12", replies("deposit 1 3 300 2", "claim 4 1 3 300"), [0, 13])


# ------------------------------------------------------------ limits, both sides

def check_field_limits():
    """Each limited field of each call: just inside and just outside."""
    limits = {"member": (1, 16, 3), "asset": (1, 8, 4), "domain": (1, 8, 5),
              "amount": (1, CEILING, 6), "payee": (1, 65_535, 7)}
    calls = [  # a call all of whose fields are within their limits
        (("deposit", 1, 3, 500, 2), (None, "asset", "amount", "member")),
        (("claim", 2, 1, 3, 500), ("member", None, "asset", "amount")),
        (("transfer", 2, 4, 3, 500), ("member", "member", "asset", "amount")),
        (("withdraw", 2, 3, 500, 77), ("member", "asset", "amount", "payee")),
        (("grant", 2, 4, 5), ("member", "member", "domain")),
        (("sign", 2, 5), ("member", "domain")),
    ]
    for call, kinds in calls:
        for place, kind in enumerate(kinds, 1):
            if kind is None:
                continue
            least, most, refusal = limits[kind]
            for value in (least, most):
                inside = call[:place] + (value,) + call[place + 1:]
                check(f"{inside} within", step(Book(), inside)[0] == refusal, False)
            for value in (least - 1, most + 1, LAST_U64):
                outside = call[:place] + (value,) + call[place + 1:]
                check(f"{outside}", step(Book(), outside), (refusal, []))
    check("most of everything", replies(
        f"deposit 1 8 {CEILING} 16", f"claim 16 1 8 {CEILING}",
        f"transfer 16 1 8 {CEILING}", f"transfer 1 16 8 {CEILING}",
        f"withdraw 16 8 {CEILING} 65535", "grant 1 16 8", "sign 16 8", "send",
        "settle 0", "trace 0", "deposit 2 8 1 16", "deposit 2 7 1 16"),
        [0] * 10 + [11, 0])


def check_deposit_numbers():
    check("old and gap", replies("deposit 1 3 5 2", "deposit 1 3 5 2", "deposit 0 3 5 2",
                                 "deposit 3 3 5 2", "deposit 2 3 5 2"), [0, 9, 9, 10, 0])
    check("a refused deposit does not use its number",
          replies("deposit 1 3 0 2", "deposit 1 3 5 2"), [6, 0])
    book = Book()
    book.last_deposit = LAST_NUMBER - 1
    check("last number", replies_on(
        book, f"deposit {LAST_NUMBER + 1} 3 5 2", f"deposit {LAST_NUMBER} 3 5 2",
        f"deposit {LAST_NUMBER + 1} 3 5 2", f"deposit {LAST_NUMBER} 3 5 2",
        f"deposit {LAST_U64} 3 5 2"), [10, 0, 10, 9, 10])
    check("smallest refusal first", replies(
        "deposit 0 9 0 17", "deposit 0 9 0 2", "deposit 0 3 0 2", "deposit 0 3 5 2",
        "transfer 17 17 9 0", "transfer 2 2 9 0", "transfer 2 2 3 0", "grant 17 17 9",
        "grant 2 2 9", "grant 2 2 5", "grant 2 3 5", "withdraw 2 3 5 0",
        "withdraw 2 3 5 1"), [3, 4, 6, 9, 3, 4, 6, 3, 5, 8, 15, 7, 14])


def check_full_tables():
    # 65 deposits
    book = Book()
    deposits = [f"deposit {number} 3 5 2" for number in range(1, 66)]
    check("65 deposits", replies_on(book, *deposits), [0] * 64 + [12])
    check("ceiling before inbox full", replies_on(book, f"deposit 65 3 {CEILING} 2"), [11])
    check("claim one, then one more", replies_on(book, "claim 2 30 3 5", deposits[64]), [0, 0])
    check("inbox keeps its order", [row[0] for row in book.inbox],
          [number for number in range(1, 66) if number != 30])

    # payment 33
    book = Book()
    replies_on(book, "deposit 1 3 1000 2", "claim 2 1 3 1000")
    check("payment 33", replies_on(book, *["withdraw 2 3 1 77"] * 33), [0] * 32 + [16])
    check("sending frees no row", replies_on(book, "send", "withdraw 2 3 1 77"), [0, 16])
    check("settling does", replies_on(book, "settle 0", "withdraw 2 3 1 77",
                                      "withdraw 2 3 1 77"), [0, 0, 16])
    check("short before outbox full", replies_on(book, "withdraw 2 3 968 77",
                                                 "withdraw 2 3 967 77"), [14, 16])
    check("nonces differ", [row[3] for row in book.outbox], list(range(1, 33)))

    # record 1,025
    for last_call in ("claim 2 3 3 9", "transfer 2 4 3 1", "withdraw 2 3 1 77", "grant 1 2 5"):
        book = Book()
        replies_on(book, "deposit 1 3 1000 2", "claim 2 1 3 1000", "withdraw 2 3 1 77",
                   "deposit 2 4 5 2", "deposit 3 3 9 2")
        to_and_fro = ["transfer 2 4 3 1", "transfer 4 2 3 1"] * 511
        check("to record 1,024", set(replies_on(book, *to_and_fro)), {0})
        check("record 1,024", (len(book.history), replies_on(book, last_call)), (1_024, [17]))
        check("all four refused", replies_on(
            book, "claim 2 2 4 5", "transfer 2 4 3 1", "withdraw 2 3 1 77",
            "grant 1 2 5"), [17] * 4)
        check("the others go on", replies_on(
            book, "deposit 4 3 5 2", "send", "settle 0", "sign 1 5", "trace 0"), [0] * 5)
        book.history.pop()
        check("with a row free", replies_on(book, last_call), [0])


# ------------------------------------------------------------------- the reader

def check_reader():
    read = [  # lines that read; on an empty book they are refused for other causes
        (b"settle\t18446744073709551615\n", b"1\t19\nend\t0\t1\n"),
        (b"settle\t0\n", b"1\t19\nend\t0\t1\n"),
        (b"settle\t10000000000000000000\n", b"1\t19\nend\t0\t1\n"),
        (b"trace\t0\n", b"1\t21\nend\t0\t1\n"),
        (b"send\n", b"1\t18\nend\t0\t1\n"),
        (b"deposit\t1\t3\t5\t18446744073709551615\n", b"1\t3\nend\t0\t1\n"),
    ]
    for given, expected in read:
        check(f"reads {given}", output_of(given), expected)
    for lines, extra in ((99_999, b"send"), (100_000, b""), (100_000, b"send"),
                         (100_000, b"sign\t1\t5\n"), (100_001, b"")):
        out = output_of(b"sign\t1\t5\n" * lines + extra).splitlines()
        answered = min(lines, 100_000)
        over = 1 if lines == 99_999 else 0  # the unfinished line, number 100,000
        check(f"{lines} lines and {extra}", (len(out), out[-1]),
              (answered + over + 1, b"end\t%d\t%d" % (answered, over)))


# Lines that do not read, by the field that is told: the word is field 0.
FIELD_AT_FAULT = {
    0: [b"", b"\r", b"\0", b"\xff", b"\t", b"\tsettle\t1", b" send", b"send ", b"settle 1", b"Settle\t1",
        b"SEND", b"sen", b"settled\t1", b"pay\t2\t4\t3\t200", b"end\t0\t0", b"settle\0\t1",
        b"9" * 120, b"9" * 121, b"9" * 122, b"x" * 130, b"x" * 100_000, b"x" * 121 + b"\t02",
        b"deposits\t" + b"9" * 130, b"\t" * 121],
    1: [b"settle", b"settle\t", b"settle\t\t1", b"settle\t00", b"settle\t01", b"settle\t+1", b"settle\t-1",
        b"settle\t 1", b"settle\t1 ", b"settle\t1\r", b"settle\t1\0", b"settle\t\0", b"settle\t1\xff",
        b"settle\t1.0", b"settle\t1_0", b"settle\t\xd9\xa3", b"settle\t18446744073709551616",
        b"settle\t99999999999999999999", b"settle\t100000000000000000000",
        b"settle\t" + b"0" * 113, b"settle\t" + b"0" * 114, b"settle\t" + b"9" * 114,
        b"send\t", b"send\t0", b"send\t\t", b"send" + b"\t1" * 30, b"send" + b"\t1" * 60,
        b"transfer\t02\t4\t3\t200\t1", b"transfer\t\t\t\t", b"deposit", b"deposit\t" * 20],
    2: [b"settle\t1\t", b"settle\t1\t1", b"settle\t1\tx", b"settle\t1\t" + b"9" * 130,
        b"sign\t1", b"sign\t1\t", b"sign\t1\t05\t5", b"grant\t1\t\t2\t5",
        b"deposit\t1\t" + b"7" * 130, b"deposit\t1\t" + b"7" * 5_000 + b"\tx"],
    3: [b"deposit\t1\t3", b"deposit\t1\t3\t", b"deposit\t3\t3\t\t2", b"deposit\t1\t3\t\t",
        b"sign\t1\t5\t", b"sign\t1\t5\t5", b"sign\t1\t5" + b"\t" * 120],
    4: [b"transfer\t2\t4\t3\t2x0", b"transfer\t2\t4\t3", b"transfer\t2\t4\t3\t",
        b"transfer\t2\t4\t3\t2x0\t1", b"grant\t1\t2\t5\t1", b"claim\t2\t1\t3\t" + b"5" * 120],
    5: [b"transfer\t2\t4\t3\t200\t1", b"transfer\t2\t4\t3\t200\t", b"transfer\t2\t4\t3\t200\tx",
        b"transfer\t2\t4\t3\t200" + b"\t1" * 30, b"withdraw" + b"\t18446744073709551615" * 5],
}

# Unfinished lines all of whose fields read: "their count with the word".
UNFINISHED = [(b"send", 1), (b"settle\t0", 2), (b"trace\t0", 2), (b"sign\t1\t5", 3), (b"grant\t1\t2\t5", 4),
              (b"deposit\t1\t3\t500\t2", 5), (b"claim\t2\t1\t3\t500", 5), (b"transfer\t2\t4\t3\t200", 5),
              (b"withdraw\t4\t3\t350\t77", 5)]


def check_field_at_fault():
    for field, lines in FIELD_AT_FAULT.items():
        for line in lines:
            check(f"malformed {line[:40]}", output_of(line + b"\nsign\t1\t5\n"),
                  b"1\t1\t%d\n2\t0\nend\t1\t1\n" % field)
            if line:  # without a line feed there is no blank line
                check(f"malformed and unfinished {line[:40]}", output_of(b"sign\t1\t5\n" + line),
                      b"1\t0\n2\t1\t%d\nend\t1\t1\n" % field)
    for line, count in UNFINISHED:
        check(f"unfinished {line}", output_of(b"sign\t1\t5\n" + line),
              b"1\t0\n2\t1\t%d\nend\t1\t1\n" % count)
        check(f"finished {line}", read_line(line + b"\n")[1], None)
    check("every word unfinished", {line.split(b"\t")[0] for line, _ in UNFINISHED}, set(FIELDS))


def with_good_numbers(line, kept):
    """The first so many fields of a line, the word among them, then a 1 for each that is missing."""
    fields = line.split(b"\t")[:kept]
    return b"\t".join(fields + [b"1"] * (1 + FIELDS[fields[0]] - len(fields)))


def check_kinds():
    """No kind of malformed line reads; what stands before the field told is not at fault, and the field is."""
    rng = random.Random(1)
    for kind, make in MALFORMED_KINDS.items():
        lines = [make(rng, ("transfer", 1, 2, 3, 4)) for _ in range(20)]
        told = [read_line(line + b"\n") for line in lines]
        check(f"kind {kind}", [call for call, _ in told], [None] * 20)
        for line, (_, field) in zip(lines, told):
            fields = line.split(b"\t")
            check(f"kind {kind}: field 0", field == 0, fields[0] not in FIELDS)
            if field == 0:
                continue
            check(f"kind {kind}: mended", read_line(with_good_numbers(line, field) + b"\n")[1], None)
            if field < len(fields):
                check(f"kind {kind}: not mended",
                      read_line(with_good_numbers(line, field + 1) + b"\n")[1], field)


# --------------------------------------------------------------------- the trace

def check_trace_by_hand():
    book = Book()
    done = replies_on(
        book, "deposit 1 1 10 1", "deposit 2 1 20 1", "deposit 3 1 5 2", "deposit 4 1 7 1",
        "claim 1 1 1 10", "claim 1 2 1 20", "claim 1 4 1 7", "claim 2 3 1 5",
        # line of 1: (1,10) (2,20) (4,7)      line of 2: (3,5)
        "transfer 1 2 1 15",
        # takes (1,10) and 5 of lot 2; the remainder (2,15) stays in front
        # line of 1: (2,15) (4,7)             line of 2: (3,5) (1,10) (2,5)
        "withdraw 1 1 16 77",
        # payment 0: (2,15) (4,1)   -- a remainder at the back would give (4,7) (2,9),
        # line of 1: (4,6)             taking newest first throughout (2,12) (1,4)
        "withdraw 2 1 12 77",
        # payment 1: (3,5) (1,7)    -- pieces joined in reverse would give (3,5) (2,5) (1,2)
        # line of 2: (1,3) (2,5)
        "transfer 2 1 1 4",
        # takes (1,3) (2,1)
        # line of 1: (4,6) (1,3) (2,1)        line of 2: (2,4)
        "transfer 2 1 1 2",
        # takes (2,2), which is not joined with (2,1) before it
        # line of 1: (4,6) (1,3) (2,1) (2,2)  line of 2: (2,2)
        "withdraw 1 1 12 77",
        # payment 2: (4,6) (1,3) (2,1) (2,2)
        "withdraw 2 1 1 77")
        # payment 3: (2,1), the front of (2,2)
    check("trace session", set(done), {0})
    check("payment 0", book.trace(0), (0, [2, 2, 15, 4, 1]))
    check("payment 1", book.trace(1), (0, [2, 3, 5, 1, 7]))
    check("payment 2", book.trace(2), (0, [4, 4, 6, 1, 3, 2, 1, 2, 2]))
    check("payment 3", book.trace(3), (0, [1, 2, 1]))
    check("payment 4", book.trace(4), (21, []))
    check("payment 2^64-1", book.trace(LAST_U64), (21, []))


def check_assets_have_lines_of_their_own():
    book = Book()
    replies_on(book, "deposit 1 1 10 1", "deposit 2 2 10 1", "claim 1 1 1 10", "claim 1 2 2 10",
               "grant 1 2 1", "withdraw 1 2 3 9", "withdraw 1 1 4 9")
    check("assets apart", [book.trace(0), book.trace(1), book.trace(2)],
          [(0, [1, 2, 3]), (0, [1, 1, 4]), (21, [])])


# -------------------------------------------------------- seeded random sessions

class Sheet:
    """The accepted calls of a session, summed without the book's help."""

    def __init__(self):
        self.deposits = Counter()   # asset: accepted deposits
        self.settled = Counter()    # asset: settled payments
        self.payments = []          # (asset, amount, payee) of accepted withdrawals
        self.units = defaultdict(deque)  # each unit of money apart, oldest first
        self.paid_units = []        # the units each payment took

    def take_units(self, member, asset, amount):
        return [self.units[member, asset].popleft() for _ in range(amount)]

    def accept(self, call, small):
        word, *f = call
        if word == "deposit":
            self.deposits[f[1]] += f[2]
        elif word == "withdraw":
            self.payments.append((f[1], f[2], f[3]))
        elif word == "settle":
            asset, amount, _ = self.payments[f[0]]
            self.settled[asset] += amount
        if word == "claim" and f[2] in small:
            self.units[f[0], f[2]].extend([f[1]] * f[3])
        elif word == "transfer" and f[2] in small:
            self.units[f[1], f[2]].extend(self.take_units(f[0], f[2], f[3]))
        elif word == "withdraw":
            self.paid_units.append(
                self.take_units(f[0], f[1], f[2]) if f[1] in small else None)


def balance_sheet_holds(book, sheet):
    # "accepted deposits = unclaimed + balances + outbox + settled.  Each side is
    # summed from the accepted calls or rows."
    sums = Counter(sheet.settled)
    for _number, asset, amount, _member in book.inbox:
        sums[asset] += amount
    for (_member, asset), balance in book.balance.items():
        sums[asset] += balance
    for asset, amount, _payee, _nonce in book.outbox:
        sums[asset] += amount
    return (all(sums[a] == sheet.deposits[a] == book.lifetime[a]
                and sheet.settled[a] == book.settled[a] for a in range(1, ASSETS + 1)))


def check_seeded_sessions(seeds, lines):
    for seed in seeds:
        book, sheet = Book(), Sheet()
        sent = 0
        faults = Counter()
        calls = calls_of(seed, lines)
        small = set(range(1, ASSETS + 1)) - {  # elsewhere there are too many units
            call[2] for call in calls if call[0] == "deposit" and call[3] > 100_000}
        for call in calls:
            before = len(book.history)
            reply, values = step(book, call)
            if reply == DONE:
                sheet.accept(call, small)
            faults["balance sheet"] += not balance_sheet_holds(book, sheet)
            if call[0] == "send" and reply == DONE:
                # "A waiting payment with k waiting before it is sent by the
                # (k+1)th send": payments are sent in the order of withdrawal.
                faults["sends"] += values != [sent, *sheet.payments[sent]]
                sent += 1
            if len(book.history) > before:
                # "From an empty book it equals the kept balance."
                _kind, asset, _amount, first, second = book.history[-1]
                for member in {first, min(second, MEMBERS)}:
                    faults["provenance"] += (
                        book.provenance(member, asset) != (DONE, [book.balance[member, asset]]))
        for member in range(1, MEMBERS + 1):
            for asset in range(1, ASSETS + 1):
                faults["provenance"] += (
                    provenance_of(book.history, member, asset) != book.balance[member, asset])
        for nonce, (asset, amount, _payee) in enumerate(sheet.payments):
            reply, values = book.trace(nonce)
            numbers, amounts = values[1::2], values[2::2]
            faults["trace"] += (reply, values[0], sum(amounts)) != (0, len(numbers), amount)
            faults["trace"] += min(amounts) < 1
            if asset in small:  # the same units, oldest first
                faults["trace units"] += sheet.paid_units[nonce] != [
                    number for number, piece in zip(numbers, amounts) for _ in range(piece)]
        for name in ("balance sheet", "sends", "provenance", "trace", "trace units"):
            check(f"seed {seed}: {name}", faults[name], 0)


def check_frame_of_reached_books(seeds, lines):
    """Every reached book is in frame, and call_on_book answers as Book does,
    leaving the same desk and the same used rows."""
    for seed in seeds:
        book, flat = Book(), FlatBook()
        faults = Counter()
        for call in calls_of(seed, lines):
            before = flat
            reply, values = step(book, call)
            flat_reply, flat_values, flat = call_on_book(flat, call)
            faults["reply"] += (flat_reply, flat_values) != (reply, values)
            if flat is not before:
                faults["book"] += vars(load(flat)) | {"traced": 0} != vars(book) | {"traced": 0}
                faults["frame"] += frame_fault(flat) is not None
                if flat.history_count > before.history_count:
                    faults["history frame"] += history_fault(flat) is not None
            # from an empty book unused rows are zeros
            faults["unused"] += any(flat.inbox[flat.inbox_count * 4:]) or any(
                flat.outbox[flat.outbox_count * 4:]) or any(flat.history[flat.history_count * 5:])
        for name in ("reply", "book", "frame", "history frame", "unused"):
            check(f"flat seed {seed}: {name}", faults[name], 0)


def check_coverage():
    reached_replies, malformed = cover(range(1, 13), 3_000)
    check("fields at fault", sorted(malformed), [0, 1, 2, 3, 4, 5])
    for word, possible in POSSIBLE.items():
        check(f"replies of {word}", sorted(reached_replies[word]), possible)
    check("same seed, same session", session(7, 500), session(7, 500))
    check("line count", session(8, 500).count(b"\n"), 500)
    check("unfinished last line", session(7, 500).count(b"\n"), 499)


# ------------------------------------------------------------ books out of frame

# A book in frame with rows in every table: deposits 3 and 4 unclaimed, payments 1
# and 2 in the outbox, payment 1 in flight.
IN_USE = ("deposit 1 3 500 2", "deposit 2 4 300 4", "deposit 3 3 10 5", "deposit 4 8 20 6",
          "claim 2 1 3 500", "claim 4 2 4 300", "transfer 2 4 3 200", "grant 1 2 5",
          "withdraw 4 3 50 77", "withdraw 2 3 60 78", "withdraw 4 4 70 79",
          "send", "settle 0", "send")


def check_out_of_frame():
    flat = reached(*IN_USE)
    check("in use: in frame", (frame_fault(flat), history_fault(flat)), (None, None))
    check("empty: in frame", (frame_fault(FlatBook()), history_fault(FlatBook())), (None, None))
    limit = ("a member, asset, amount or payee in a used inbox or outbox row "
             "outside its limit")
    above = "a balance, lifetime total or settled total above the ceiling"
    numbers = ("inbox deposit numbers not strictly rising, below 1 or above the "
               "last accepted")
    nonces = "outbox nonces not rising by 1 up to the next nonce less 1"
    wrong_size, count = "a lent table of the wrong size", "a count above its rows"
    # inbox rows: 3 3 10 5, 4 8 20 6; outbox rows: 3 60 78 1, 4 70 79 2
    cases = [
        (wrong_size, dict(inbox=flat.inbox[:-4])), (wrong_size, dict(inbox=flat.inbox + [0] * 4)),
        (wrong_size, dict(outbox=flat.outbox[:-4])), (wrong_size, dict(outbox=[])),
        (wrong_size, dict(outbox=flat.outbox + [0] * 4)),
        (wrong_size, dict(history=flat.history[:-5])),
        (wrong_size, dict(history=flat.history + [0] * 5)),
        (count, dict(inbox_count=65)), (count, dict(outbox_count=33)),
        (count, dict(history_count=1_025)), (count, dict(history_count=LAST_U64)),
        ("more in flight than in the outbox", dict(in_flight=3)),
        (above, dict(balances=(0, CEILING + 1))), (above, dict(balances=(127, CEILING + 1))),
        (above, dict(lifetime=(7, CEILING + 1))), (above, dict(settled=(0, CEILING + 1))),
        (limit, dict(inbox=(1, 0))), (limit, dict(inbox=(5, 9))),
        (limit, dict(inbox=(2, 0))), (limit, dict(inbox=(6, CEILING + 1))),
        (limit, dict(inbox=(3, 0))), (limit, dict(inbox=(7, 17))),
        (limit, dict(outbox=(0, 0))), (limit, dict(outbox=(4, 9))),
        (limit, dict(outbox=(1, 0))), (limit, dict(outbox=(5, CEILING + 1))),
        (limit, dict(outbox=(2, 0))), (limit, dict(outbox=(6, 65_536))),
        (numbers, dict(inbox=(0, 4))), (numbers, dict(inbox=(0, 5))),
        (numbers, dict(inbox=(0, 0))), (numbers, dict(inbox=(4, 5))),
        (numbers, dict(last_deposit=3)),
        (nonces, dict(outbox=(3, 0))), (nonces, dict(outbox=(3, 2))),
        (nonces, dict(outbox=(7, 3))), (nonces, dict(outbox=(7, 1))),
        (nonces, dict(next_nonce=4)), (nonces, dict(next_nonce=2)),
        (nonces, dict(next_nonce=1)), (nonces, dict(next_nonce=0)),
        ("last deposit number above 4,294,967,295", dict(last_deposit=LAST_NUMBER + 1)),
        ("next nonce above 1,024", dict(next_nonce=1_025, outbox_count=0, in_flight=0)),
        ("a holder outside 1 to 16", dict(holders=(0, 0))),
        ("a holder outside 1 to 16", dict(holders=(7, 17))),
    ]
    calls = [call_of(text) for text in (
        "deposit 5 3 5 2", "claim 5 3 3 10", "transfer 2 4 3 1", "withdraw 2 3 1 77", "send",
        "settle 1", "grant 2 1 5", "sign 2 5", "trace 0")] + [("provenance", 2, 3)]
    bad_calls = [("deposit", 0, 0, 0, 0), ("sign", 17, 9), ("trace", LAST_U64),
                 ("provenance", 17, 9)]
    for clause, change in cases:
        bad = changed(flat, **change)
        check(f"out of frame {change if len(str(change)) < 60 else clause}",
              frame_fault(bad), clause)
        # "every call tests all of it", and 2 is smaller than any other refusal
        check(f"every call refused: {clause}",
              [call_on_book(bad, call) == (2, [], bad) for call in calls + bad_calls],
              [True] * 14)
        check(f"trace with tables: {clause}", trace_on_book(bad, 0, [], [7]), (2, [], [], [7]))
    for call in calls:
        check(f"in frame, done: {call}", call_on_book(flat, call)[0], DONE)

    # the other side of each clause
    inside = [dict(in_flight=2), dict(balances=(0, CEILING)), dict(lifetime=(7, CEILING)),
              dict(settled=(0, CEILING)), dict(inbox=(1, 1)), dict(inbox=(5, 8)),
              dict(inbox=(2, 1)), dict(inbox=(6, CEILING)), dict(inbox=(3, 1)),
              dict(inbox=(7, 16)), dict(outbox=(2, 1)), dict(outbox=(6, 65_535)),
              dict(inbox=(0, 1)), dict(last_deposit=LAST_NUMBER), dict(holders=(0, 16)),
              dict(next_nonce=1_024, outbox_count=0, in_flight=0),
              dict(next_nonce=0, outbox_count=0, in_flight=0),
              # unused rows may hold anything
              dict(inbox=(8, LAST_U64)), dict(outbox=(8, LAST_U64)),
              dict(history=(5_119, LAST_U64))]
    for change in inside:
        check(f"in frame {change}", in_frame(changed(flat, **change), history_too=True))
    full = changed(FlatBook(), inbox_count=64, last_deposit=64, outbox_count=32,
                   in_flight=32, next_nonce=32, history_count=1_024,
                   inbox=[v for n in range(1, 65) for v in (n, 1, 1, 1)],
                   outbox=[v for n in range(32) for v in (1, 1, 1, n)],
                   history=[CLAIM, 1, CEILING, 1, 1] * 1_024)
    check("full tables in frame", in_frame(full, history_too=True))
    # claims above the ceiling are no fault of the history: provenance goes on
    check("large provenance", call_on_book(full, ("provenance", 1, 1))[:2],
          (0, [1_024 * CEILING]))


def check_out_of_frame_history():
    # A good history; each case changes or adds one record.
    good = [(CLAIM, 3, 500, 2, 1), (TRANSFER, 3, 200, 2, 4), (WITHDRAWAL, 3, 50, 4, 77),
            (GRANT, 5, 1, 1, 2), (GRANT, 5, 1, 2, 3)]

    def book_with(history):
        flat = changed(FlatBook(), history_count=len(history))
        flat.history[:5 * len(history)] = [value for record in history for value in record]
        return flat

    field, kind = "a field outside its limit", "a bad kind"
    equal, less = "equal members in a transfer or grant", "sender has less than the amount"
    not_held = "sender does not hold the domain"
    cases = [
        (kind, (0, 3, 5, 2, 1)), (kind, (5, 3, 5, 2, 1)), (kind, (LAST_U64, 3, 5, 2, 1)),
        (kind, (0, 0, 0, 0, 0)),
        (field, (CLAIM, 0, 5, 2, 1)), (field, (CLAIM, 9, 5, 2, 1)), (field, (CLAIM, 3, 0, 2, 1)),
        (field, (CLAIM, 3, CEILING + 1, 2, 1)), (field, (CLAIM, 3, 5, 0, 1)),
        (field, (CLAIM, 3, 5, 17, 1)), (field, (CLAIM, 3, 5, 2, 0)),
        (field, (CLAIM, 3, 5, 2, LAST_NUMBER + 1)),
        (field, (TRANSFER, 0, 5, 2, 4)), (field, (TRANSFER, 9, 5, 2, 4)),
        (field, (TRANSFER, 3, 0, 2, 4)), (field, (TRANSFER, 3, CEILING + 1, 2, 4)),
        (field, (TRANSFER, 3, 5, 0, 4)), (field, (TRANSFER, 3, 5, 17, 4)),
        (field, (TRANSFER, 3, 5, 2, 0)), (field, (TRANSFER, 3, 5, 2, 17)),
        (field, (WITHDRAWAL, 0, 5, 2, 77)), (field, (WITHDRAWAL, 9, 5, 2, 77)),
        (field, (WITHDRAWAL, 3, 0, 2, 77)), (field, (WITHDRAWAL, 3, CEILING + 1, 2, 77)),
        (field, (WITHDRAWAL, 3, 5, 0, 77)), (field, (WITHDRAWAL, 3, 5, 17, 77)),
        (field, (WITHDRAWAL, 3, 5, 2, 0)), (field, (WITHDRAWAL, 3, 5, 2, 65_536)),
        (field, (GRANT, 0, 1, 1, 2)), (field, (GRANT, 9, 1, 1, 2)), (field, (GRANT, 6, 0, 1, 2)),
        (field, (GRANT, 6, 2, 1, 2)), (field, (GRANT, 6, 1, 0, 2)), (field, (GRANT, 6, 1, 17, 2)),
        (field, (GRANT, 6, 1, 1, 0)), (field, (GRANT, 6, 1, 1, 17)),
        (equal, (TRANSFER, 3, 5, 2, 2)), (equal, (GRANT, 6, 1, 1, 1)),
        (less, (TRANSFER, 3, 301, 2, 4)), (less, (TRANSFER, 4, 1, 2, 4)),
        (less, (WITHDRAWAL, 3, 301, 2, 77)), (less, (WITHDRAWAL, 3, 151, 4, 77)),
        (not_held, (GRANT, 5, 1, 1, 2)), (not_held, (GRANT, 5, 1, 2, 1)),
    ]
    for clause, record in cases:
        for history in (good + [record], good + [record, (CLAIM, 3, 900, 2, 9)]):
            bad = book_with(history)
            check(f"history {record}", (frame_fault(bad), history_fault(bad)), (None, clause))
            check(f"provenance and trace refuse {record}",
                  [call_on_book(bad, ("provenance", 2, 3)), call_on_book(bad, ("trace", 0)),
                   call_on_book(bad, ("trace", 9)), trace_on_book(bad, 9, [], [])],
                  [(2, [], bad)] * 3 + [(2, [], [], [])])
            check("other calls do not test it", [
                call_on_book(bad, call_of(text))[0] for text in (
                    "deposit 1 3 5 2", "claim 2 1 3 5", "transfer 2 4 3 1",
                    "withdraw 2 3 1 77", "send", "settle 0", "grant 1 2 6", "sign 1 6")],
                [0, 13, 14, 14, 18, 19, 0, 0])
        unused = book_with(good + [record])
        unused.history_count = len(good)  # the same record in an unused row
        check(f"unused {record}", history_fault(unused), None)
    inside = [(CLAIM, 1, 1, 1, 1), (CLAIM, 8, CEILING, 16, LAST_NUMBER), (TRANSFER, 3, 300, 2, 16),
              (TRANSFER, 3, 150, 4, 2), (WITHDRAWAL, 3, 300, 2, 1), (WITHDRAWAL, 3, 150, 4, 65_535),
              (GRANT, 5, 1, 3, 16), (GRANT, 1, 1, 1, 16), (GRANT, 8, 1, 1, 2)]
    for record in inside:
        check(f"history in frame {record}", history_fault(book_with(good + [record])), None)
    flat = book_with(good)
    check("provenance", [call_on_book(flat, ("provenance", m, a))[:2] for m, a in (
        (2, 3), (4, 3), (1, 3), (2, 4), (0, 3), (17, 9), (2, 0), (2, 9))],
        [(0, [300]), (0, [150]), (0, [0]), (0, [0]), (3, []), (3, []), (4, []), (4, [])])
    check("payee 2 is no member", provenance_of([(CLAIM, 3, 9, 1, 2), (WITHDRAWAL, 3, 4, 1, 2)],
                                                2, 3), 0)
    check("a grant moves no money", provenance_of([(CLAIM, 5, 9, 1, 2), (GRANT, 5, 1, 1, 2)],
                                                  1, 5), 9)


def check_done_may_leave_the_frame():
    # "A Done on a book not reached from an empty one may leave a book out of
    # frame; the next call then says BadBook."
    flat = changed(reached(*IN_USE), balances=[CEILING] * 128, settled=[CEILING] * 8)
    nonce = changed(flat, next_nonce=1_024, outbox_count=0, in_flight=0)
    for start, text in ((flat, "claim 5 3 3 10"), (flat, "transfer 2 4 3 1"), (flat, "settle 1"),
                        (nonce, "withdraw 2 3 1 77")):
        reply, _, after = call_on_book(start, call_of(text))
        check(f"{text}: done, then BadBook",
              (reply, call_on_book(after, call_of("sign 2 5"))[0]), (0, 2))
    # a transfer of money that the history does not know of: only the calls that
    # test the history refuse the book afterwards
    start = changed(FlatBook(), balances=(8, 50))
    check("before", call_on_book(start, ("provenance", 2, 1))[:2], (0, [0]))
    reply, _, after = call_on_book(start, call_of("transfer 2 4 1 50"))
    check("unknown money", (reply, [call_on_book(after, call)[0] for call in (
        call_of("sign 1 5"), call_of("transfer 4 2 1 50"), ("provenance", 2, 1), ("trace", 0))]),
        (0, [0, 0, 2, 2]))


# ------------------------------------------------------------------ the lent rows

def check_rows():
    # "When a row leaves inbox or outbox, the last used row becomes zeros; other
    # unused rows keep what they held."
    flat = changed(reached(*IN_USE), inbox_count=3, last_deposit=9)
    flat.inbox[:16] = [3, 3, 10, 5, 4, 8, 20, 6, 7, 1, 30, 7, 91, 92, 93, 94]
    flat.outbox[8:16] = [81, 82, 83, 84, 85, 86, 87, 88]
    flat.history[35:45] = [71, 72, 73, 74, 75, 76, 77, 78, 79, 80]
    check("seven records", flat.history_count, 7)

    def after(text):
        reply, _, book = call_on_book(flat, call_of(text))
        assert reply == DONE, text
        return book

    middle = after("claim 6 4 8 20")
    check("claim from the middle", middle.inbox,
          [3, 3, 10, 5, 7, 1, 30, 7, 0, 0, 0, 0, 91, 92, 93, 94] + [0] * 240)
    check("claim: record", middle.history[35:45], [1, 8, 20, 6, 4, 76, 77, 78, 79, 80])
    check("claim: balance", middle.balances[(6 - 1) * 8 + 7], 20)
    check("claim the first", after("claim 5 3 3 10").inbox[:16],
          [4, 8, 20, 6, 7, 1, 30, 7, 0, 0, 0, 0, 91, 92, 93, 94])
    check("claim the last", after("claim 7 7 1 30").inbox[:16],
          [3, 3, 10, 5, 4, 8, 20, 6, 0, 0, 0, 0, 91, 92, 93, 94])
    check("deposit", (after("deposit 10 2 40 8").inbox[8:20], after("deposit 10 2 40 8").lifetime),
          ([7, 1, 30, 7, 10, 2, 40, 8, 0, 0, 0, 0], [0, 40, 510, 300, 0, 0, 0, 20]))
    settled = after("settle 1")
    check("settle", (settled.outbox[:16], settled.settled, settled.in_flight),
          ([4, 70, 79, 2, 0, 0, 0, 0, 81, 82, 83, 84, 85, 86, 87, 88],
           [0, 0, 110, 0, 0, 0, 0, 0], 0))
    paid = after("withdraw 2 3 5 99")
    check("withdraw", (paid.outbox[4:16], paid.next_nonce, paid.history[35:45]),
          ([4, 70, 79, 2, 3, 5, 99, 3, 85, 86, 87, 88], 4, [3, 3, 5, 2, 99, 76, 77, 78, 79, 80]))
    check("grant", (after("grant 2 9 5").history[35:40], after("grant 2 9 5").holders),
          ([4, 5, 1, 2, 9], [1, 1, 1, 1, 9, 1, 1, 1]))
    check("send", after("send"), changed(flat, in_flight=2))
    check("sign and trace change nothing", (after("sign 2 5"), after("trace 0")), (flat, flat))
    check("load and store", store(load(flat), flat), flat)
    check("rows", rows([1, 2, 3, 4, 5, 6], 2, 2), [(1, 2), (3, 4)])


def check_trace_tables():
    flat = reached(*IN_USE)  # seven records; payment 1 is the withdrawal of 60 by member 2
    work, pieces = list(range(1, 37)), list(range(101, 137))  # nine rows each
    # line of 2 in asset 3: (1,500), transfer 200 to 4, leaving (1,300)
    check("trace fills the first rows", trace_on_book(flat, 1, work, pieces),
          (0, [1], [0] * 36, [2, 3, 1, 60] + pieces[4:]))
    check("payment of another member", trace_on_book(flat, 0, work, pieces),
          (0, [1], [0] * 36, [4, 3, 1, 50] + pieces[4:]))
    check("no such payment", trace_on_book(flat, 3, work, pieces), (21, [], work, pieces))
    check("just enough rows", trace_on_book(flat, 2, work[:28], pieces[:28]),
          (0, [1], [0] * 28, [4, 4, 2, 70] + pieces[4:28]))
    check("work too short", trace_on_book(flat, 2, work[:24], pieces),
          (20, [], work[:24], pieces))
    check("pieces too short", trace_on_book(flat, 2, work, pieces[:24]),
          (20, [], work, pieces[:24]))
    check("too short before no such payment", trace_on_book(flat, 3, [], pieces),
          (20, [], [], pieces))
    check("empty book, empty tables", trace_on_book(FlatBook(), 0, [], []), (21, [], [], []))


def check_random_books(seeds):
    """Reached books with a few numbers spoilt: a reply 2 exactly with a fault, and
    a refusal leaves everything as found."""
    spoilers = [0, 1, 2, 9, 17, 33, 65, 1_025, 65_536, CEILING, CEILING + 1,
                LAST_NUMBER + 1, LAST_U64]
    for seed in seeds:
        rng = random.Random(seed)
        calls = calls_of(seed, 400)
        flat = FlatBook()
        for call in calls:
            flat = call_on_book(flat, call)[2]
        faults = replies_2 = 0
        for _ in range(200):
            spoilt = changed(flat)
            for _ in range(rng.randint(1, 2)):
                name = rng.choice(list(vars(spoilt)))
                value = getattr(spoilt, name)
                if isinstance(value, list):
                    value[rng.randrange(min(len(value), 60))] = rng.choice(spoilers)
                else:
                    setattr(spoilt, name, rng.choice(spoilers))
            call = rng.choice(calls + [("provenance", 2, 3)])
            kept = changed(spoilt)
            reply, values, after = call_on_book(spoilt, call)
            bad = frame_fault(spoilt) is not None or (
                call[0] in ("trace", "provenance") and history_fault(spoilt) is not None)
            replies_2 += reply == 2
            faults += (reply == 2) != bad or spoilt != kept
            faults += reply != DONE and (values != [] or after != kept)
        check(f"spoilt books, seed {seed}", (faults, replies_2 > 0), (0, True))


if __name__ == "__main__":
    check_document_session()
    check_p_cases()
    check_field_limits()
    check_deposit_numbers()
    check_full_tables()
    check_reader()
    check_field_at_fault()
    check_kinds()
    check_trace_by_hand()
    check_assets_have_lines_of_their_own()
    check_seeded_sessions(range(1, 21), 3_000)
    check_frame_of_reached_books(range(21, 27), 2_500)
    check_coverage()
    check_out_of_frame()
    check_out_of_frame_history()
    check_done_may_leave_the_frame()
    check_rows()
    check_trace_tables()
    check_random_books(range(1, 11))
    print(f"{checks} checks, {failed} failed")
    sys.exit(1 if failed else 0)
