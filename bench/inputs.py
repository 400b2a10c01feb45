"""The sessions of the comparison. The same bytes every time: nothing here depends on the day or the machine."""
import os
import random
import sys

TOP = os.path.join(os.path.dirname(os.path.abspath(__file__)), "..")
sys.path.insert(0, os.path.join(TOP, "tests", "reference"))
import book  # noqa: E402  the reference: it says which calls a book accepts
import sessions  # noqa: E402  the kinds of malformed lines

MOST_LINES = book.SESSION_LINES
MOST_RECORDS = book.HISTORY_ROWS
LARGE = 10 ** 9


def lines(calls):
    return b"".join(sessions.line_of(call) + b"\n" for call in calls)


def filled_up(start, call, count=MOST_LINES):
    """The lines of `start`, then one call again and again, `count` lines in all."""
    return lines(start) + lines([call]) * (count - len(start))


# ---- short lines ----

ONE_PAYMENT = [("deposit", 1, 3, 500, 2), ("claim", 2, 1, 3, 500), ("withdraw", 2, 3, 350, 77)]


def short_lines():
    """Each call as short lines: the name of the row, and the session."""
    on_an_empty_book = [
        ("deposit, refused (10 Gap)", ("deposit", 2, 3, 500, 2)),
        ("claim, refused (13 NoSuchDeposit)", ("claim", 2, 1, 3, 500)),
        ("transfer, refused (14 Short)", ("transfer", 2, 4, 3, 200)),
        ("withdraw, refused (14 Short)", ("withdraw", 4, 3, 350, 77)),
        ("send, refused (18 NothingWaiting)", ("send",)),
        ("settle, refused (19 NotNext)", ("settle", 0)),
        ("grant, refused (15 NotHolder)", ("grant", 2, 3, 5)),
        ("sign, refused (15 NotHolder)", ("sign", 2, 5)),
        ("sign, Done", ("sign", 1, 5)),
        ("trace, refused (21 NoSuchPayment)", ("trace", 0)),
    ]
    rows = [(name, filled_up([], call)) for name, call in on_an_empty_book]
    rows.append(("trace, Done, two records", filled_up(ONE_PAYMENT, ("trace", 0))))
    return rows


def full_tables():
    """64 unclaimed deposits and 32 payments, so that the frame test has every row to test."""
    start = [("deposit", 1, 3, LARGE, 2), ("claim", 2, 1, 3, LARGE)]
    start += [("withdraw", 2, 3, 1, 77)] * 32
    start += [("deposit", number, 3, 10, 2) for number in range(2, 66)]
    refused = [("deposit", 66, 3, 10, 2), ("claim", 2, 66, 3, 10), ("transfer", 4, 2, 3, 5),
               ("withdraw", 2, 3, 1, 77), ("settle", 9), ("grant", 2, 3, 5), ("sign", 2, 5)]
    calls = start + refused * (MOST_LINES // len(refused))
    return lines(calls[:MOST_LINES])


# ---- Done calls ----

def accepted_book(records=MOST_RECORDS, seed=1):
    """Calls that are all Done and write so many records, as sixteen charities might make them:
    deposits that are claimed, transfers, payments sent and settled, a domain passed on. The last is a
    payment."""
    rng = random.Random(seed)
    kept, calls = book.Book(), []

    def make(*call):
        if book.step(kept, call)[0] == book.DONE:
            calls.append(call)

    while len(kept.history) < records:
        act = rng.choices(("claim", "transfer", "withdraw", "grant"), (40, 28, 30, 2))[0]
        held = [key for key, balance in kept.balance.items() if balance]
        if held and len(kept.history) == records - 1:
            act = "withdraw"
        if act == "claim" or not held:
            number, asset, amount, member = (kept.last_deposit + 1, rng.randint(1, 3),
                                             rng.randint(100, 100_000), rng.randint(1, book.MEMBERS))
            make("deposit", number, asset, amount, member)
            make("claim", member, number, asset, amount)
        elif act == "grant":
            domain = rng.randint(1, book.DOMAINS)
            make("grant", kept.holder[domain], rng.randint(1, book.MEMBERS), domain)
        else:
            member, asset = rng.choice(held)
            balance = kept.balance[member, asset]
            amount = rng.choice((balance, rng.randint(1, balance), rng.randint(1, balance)))
            if act == "transfer":
                make("transfer", member, rng.randint(1, book.MEMBERS), asset, amount)
            else:
                make("withdraw", member, asset, amount, rng.randint(1, 400))
        if len(kept.outbox) > 8 and len(kept.history) < records:
            make("send")
            make("settle", kept.outbox[0][3])
    return calls


def payments_of(calls):
    return sum(call[0] == "withdraw" for call in calls)


def with_traces(calls, traces):
    """The calls, then so many traces, of each payment in turn."""
    count = payments_of(calls)
    return lines(calls) + lines(("trace", n % count) for n in range(traces))


def document_session():
    with open(os.path.join(TOP, "examples", "first.tsv"), "rb") as file:
        return file.read()


def document_session_repeated():
    """Document 01's session again and again. There is one book, so most of the calls are refused
    from the third time on; the trace is Done every time."""
    once = document_session().splitlines(keepends=True)
    return b"".join((once * (MOST_LINES // len(once) + 1))[:MOST_LINES])


# ---- malformed lines ----

def malformed_short():
    """Every kind of malformed line but the long ones, in turn."""
    rng = random.Random(7)
    calls = [("deposit", 1, 3, 500, 2), ("claim", 2, 1, 3, 500), ("withdraw", 4, 3, 350, 77), ("settle", 0)]
    long_ones = {"120 bytes", "121 bytes", "122 bytes", "very long", "any bytes"}
    kinds = [make for name, make in sessions.MALFORMED_KINDS.items() if name not in long_ones]
    made = [kinds[n % len(kinds)](rng, calls[n % len(calls)]) + b"\n" for n in range(5_000)]
    return b"".join(made) * (MOST_LINES // len(made))


def malformed_long():
    """Lines of 120 and of 1,000 bytes."""
    return (b"deposit\t1\t3\t500\t" + b"9" * 104 + b"\n" + b"x" * 1_000 + b"\n") * (MOST_LINES // 4)


# ---- hard traces ----

def claimed(number, amount, member=1, asset=1):
    return [("deposit", number, asset, amount, member), ("claim", member, number, asset, amount)]


def moved_whole(records=MOST_RECORDS):
    """Half of the records are claims; then all lots pass from one member to another and back."""
    claims = records // 2
    calls = [call for n in range(1, claims + 1) for call in claimed(n, 10)]
    for n in range(records - claims - 1):
        calls.append(("transfer", 1 + n % 2, 2 - n % 2, 1, 10 * claims))
    payer = 1 + (records - claims - 1) % 2
    return calls + [("withdraw", payer, 1, 10 * claims, 77)]


def moved_all_but_one(records=MOST_RECORDS):
    """One claim; then each transfer moves all but one unit of what the sender has, to and fro. Each
    splits a lot, so there is one lot more after each, and nearly all of them move every time."""
    kept = {1: LARGE, 2: 0}
    calls = claimed(1, LARGE)
    for n in range(records - 2):
        sender, receiver = 1 + n % 2, 2 - n % 2
        amount = kept[sender] - 1
        kept[sender] -= amount
        kept[receiver] += amount
        calls.append(("transfer", sender, receiver, 1, amount))
    payer = max(kept, key=kept.get)
    return calls + [("withdraw", payer, 1, kept[payer], 77)]


def long_search(records=MOST_RECORDS):
    """As many lots of others as there are records left stand before the sender's: each transfer passes
    over all of them, and splits the last lot."""
    claims = records // 3
    calls = [call for n in range(1, claims + 1) for call in claimed(n, 10, member=3)]
    calls += claimed(claims + 1, LARGE)
    for n in range(records - claims - 2):
        calls.append(("transfer", 1, 2, 1, 5))
    return calls + [("withdraw", 1, 1, 7, 77)]


HARD = [
    ("all lots of 512 claims move to and fro, whole", moved_whole),
    ("one claim, all but one unit moves to and fro", moved_all_but_one),
    ("341 lots of others stand in front, one lot is split each time", long_search),
]


def last_payment_again(calls, traces):
    """The calls, then a trace of their last payment so many times."""
    return lines(calls) + lines([("trace", payments_of(calls) - 1)]) * traces
