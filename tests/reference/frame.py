"""Any book at all, in frame or not: the frame tests and the lent flat tables.

book.py starts from an empty book and so never leaves the frame.  Here a book is
the desk's numbers and three flat tables of numbers, whatever they hold:

    inbox    64 rows of    number, asset, amount, member
    outbox   32 rows of    asset, amount, payee, nonce
    history  1,024 rows of kind, asset, amount, first, second

All numbers are from 0 to 18,446,744,073,709,551,615.  Nothing handed in is ever
changed: a Done gives new books and tables, a refusal gives back those handed in.
"""
from dataclasses import dataclass, field

from book import (
    ASSETS, BAD_BOOK, CEILING, CLAIM, DOMAINS, DONE, GRANT, HISTORY_ROWS,
    INBOX_ROWS, LAST_NUMBER, MEMBERS, NO_SUCH_PAYMENT, OUTBOX_ROWS, TABLE_SMALL,
    TRANSFER, WITHDRAWAL, Book, bad_amount, bad_asset, bad_domain, bad_member,
    bad_payee, pieces_of_payments, smallest, step)

INBOX_WIDTH, OUTBOX_WIDTH, HISTORY_WIDTH, LOT_WIDTH = 4, 4, 5, 4


@dataclass
class FlatBook:
    # "The desk holds the eight balances of each of sixteen members, the domain
    # holders and the totals."  Member m's balance of asset a is at
    # (m - 1) * 8 + (a - 1).
    balances: list = field(default_factory=lambda: [0] * (MEMBERS * ASSETS))
    holders: list = field(default_factory=lambda: [1] * DOMAINS)
    lifetime: list = field(default_factory=lambda: [0] * ASSETS)
    settled: list = field(default_factory=lambda: [0] * ASSETS)
    last_deposit: int = 0
    next_nonce: int = 0
    inbox_count: int = 0
    outbox_count: int = 0
    in_flight: int = 0
    history_count: int = 0
    # "Inbox, outbox and history are lent tables with exactly the rows above."
    inbox: list = field(default_factory=lambda: [0] * (INBOX_ROWS * INBOX_WIDTH))
    outbox: list = field(default_factory=lambda: [0] * (OUTBOX_ROWS * OUTBOX_WIDTH))
    history: list = field(default_factory=lambda: [0] * (HISTORY_ROWS * HISTORY_WIDTH))


def rows(table, width, count):
    """The first `count` rows of a flat table."""
    return [tuple(table[at:at + width]) for at in range(0, count * width, width)]


def frame_fault(book):
    """The clause of "Out of frame (every call tests all of it)" that the book
    breaks, or None.  The clauses stand in the document's order."""
    if (len(book.inbox) != INBOX_ROWS * INBOX_WIDTH
            or len(book.outbox) != OUTBOX_ROWS * OUTBOX_WIDTH
            or len(book.history) != HISTORY_ROWS * HISTORY_WIDTH):
        return "a lent table of the wrong size"
    if (book.inbox_count > INBOX_ROWS or book.outbox_count > OUTBOX_ROWS
            or book.history_count > HISTORY_ROWS):
        return "a count above its rows"
    if book.in_flight > book.outbox_count:
        return "more in flight than in the outbox"
    if any(total > CEILING for total in book.balances + book.lifetime + book.settled):
        return "a balance, lifetime total or settled total above the ceiling"

    inbox = rows(book.inbox, INBOX_WIDTH, book.inbox_count)
    outbox = rows(book.outbox, OUTBOX_WIDTH, book.outbox_count)
    if (any(bad_asset(asset) or bad_amount(amount) or bad_member(member)
            for _number, asset, amount, member in inbox)
            or any(bad_asset(asset) or bad_amount(amount) or bad_payee(payee)
                   for asset, amount, payee, _nonce in outbox)):
        return ("a member, asset, amount or payee in a used inbox or outbox row "
                "outside its limit")
    numbers = [row[0] for row in inbox]
    if (any(later <= earlier for earlier, later in zip(numbers, numbers[1:]))
            or any(not 1 <= number <= book.last_deposit for number in numbers)):
        return ("inbox deposit numbers not strictly rising, below 1 or above the "
                "last accepted")
    # With more used rows than the next nonce, no nonces can fit.
    first_nonce = book.next_nonce - book.outbox_count
    if outbox and (first_nonce < 0 or [row[3] for row in outbox]
                   != list(range(first_nonce, book.next_nonce))):
        return "outbox nonces not rising by 1 up to the next nonce less 1"
    if book.last_deposit > LAST_NUMBER:
        return "last deposit number above 4,294,967,295"
    if book.next_nonce > 1_024:
        return "next nonce above 1,024"
    if any(bad_member(holder) for holder in book.holders):
        return "a holder outside 1 to 16"
    return None


def history_fault(book):
    """The clause of "For provenance and trace also" that a book, otherwise in
    frame, breaks, or None."""
    # "The whole used history is tested."
    balance = Book().balance  # the replay starts from an empty book
    holder = Book().holder
    for kind, asset, amount, first, second in rows(
            book.history, HISTORY_WIDTH, book.history_count):
        if kind == CLAIM:
            bad_field = (bad_asset(asset) or bad_amount(amount) or bad_member(first)
                         or not 1 <= second <= LAST_NUMBER)
        elif kind == TRANSFER:
            bad_field = (bad_asset(asset) or bad_amount(amount) or bad_member(first)
                         or bad_member(second))
        elif kind == WITHDRAWAL:
            bad_field = (bad_asset(asset) or bad_amount(amount) or bad_member(first)
                         or bad_payee(second))
        elif kind == GRANT:
            bad_field = (bad_domain(asset) or amount != 1 or bad_member(first)
                         or bad_member(second))
        else:
            return "a bad kind"
        if bad_field:
            return "a field outside its limit"
        if kind in (TRANSFER, GRANT) and first == second:
            return "equal members in a transfer or grant"
        if kind in (TRANSFER, WITHDRAWAL) and balance[first, asset] < amount:
            return "sender has less than the amount"
        if kind == GRANT and holder[asset] != first:
            return "sender does not hold the domain"

        if kind in (CLAIM, TRANSFER):
            balance[first if kind == CLAIM else second, asset] += amount
        if kind in (TRANSFER, WITHDRAWAL):
            balance[first, asset] -= amount
        if kind == GRANT:
            holder[asset] = second
    return None


def in_frame(book, history_too=False):
    return (frame_fault(book) is None
            and (not history_too or history_fault(book) is None))


def load(flat):
    """A flat book in frame, as a Book."""
    book = Book()
    book.balance = dict(zip(book.balance, flat.balances))  # keys in member, asset order
    book.holder = dict(zip(book.holder, flat.holders))
    book.lifetime = dict(zip(book.lifetime, flat.lifetime))
    book.settled = dict(zip(book.settled, flat.settled))
    book.last_deposit = flat.last_deposit
    book.next_nonce = flat.next_nonce
    book.in_flight = flat.in_flight
    book.inbox = rows(flat.inbox, INBOX_WIDTH, flat.inbox_count)
    book.outbox = rows(flat.outbox, OUTBOX_WIDTH, flat.outbox_count)
    book.history = rows(flat.history, HISTORY_WIDTH, flat.history_count)
    return book


def store(book, before):
    """The Book as a flat book, over the tables as they were before one call."""
    return FlatBook(
        balances=list(book.balance.values()), holders=list(book.holder.values()),
        lifetime=list(book.lifetime.values()), settled=list(book.settled.values()),
        last_deposit=book.last_deposit, next_nonce=book.next_nonce,
        inbox_count=len(book.inbox), outbox_count=len(book.outbox),
        in_flight=book.in_flight, history_count=len(book.history),
        inbox=store_rows(book.inbox, before.inbox, INBOX_WIDTH, before.inbox_count),
        outbox=store_rows(book.outbox, before.outbox, OUTBOX_WIDTH, before.outbox_count),
        history=store_rows(book.history, before.history, HISTORY_WIDTH,
                           before.history_count))


def store_rows(used, table, width, count_before):
    """The table with its used rows written over its first rows."""
    after = list(table)
    after[:len(used) * width] = [value for row in used for value in row]
    # "When a row leaves inbox or outbox, the last used row becomes zeros; other
    # unused rows keep what they held."
    for row in range(len(used), count_before):
        after[row * width:(row + 1) * width] = [0] * width
    return after


def call_on_book(flat, call):
    """One call (word, number, ...) on any book: reply, values, book afterwards.

    Besides the nine calls it takes ("provenance", member, asset).  A trace is
    lent tables of 1,024 rows here; trace_on_book takes any tables."""
    if not in_frame(flat, history_too=call[0] in ("trace", "provenance")):
        return BAD_BOOK, [], flat
    book = load(flat)
    reply, values = step(book, call)
    # "A refusal returns its number alone; desk and lent tables are left as found."
    return reply, values, store(book, flat) if reply == DONE else flat


def trace_on_book(flat, nonce, work, pieces):
    """Trace on any book with two lent flat tables of lots.

    A lot row is member, asset, deposit number, amount; in a piece the member is
    the one who withdrew.  Gives reply, [piece count], both tables afterwards."""
    if not in_frame(flat, history_too=True):
        return BAD_BOOK, [], work, pieces
    history = rows(flat.history, HISTORY_WIDTH, flat.history_count)
    withdrawals = [record for record in history if record[0] == WITHDRAWAL]
    refusal = smallest([
        # "each with at least as many rows as the history has records"
        (TABLE_SMALL, min(len(work), len(pieces)) // LOT_WIDTH < flat.history_count),
        # "no withdrawal has this nonce"
        (NO_SUCH_PAYMENT, nonce >= len(withdrawals)),
    ])
    if refusal:
        return refusal, [], work, pieces
    _kind, asset, _amount, member, _payee = withdrawals[nonce]
    found = pieces_of_payments(history)[nonce]
    # "Done returns the piece count; the pieces fill the first rows of theirs, the
    # rest keep what they had, and every row of the work table ends as zeros."
    after = list(pieces)
    after[:len(found) * LOT_WIDTH] = [
        value for number, amount in found for value in (member, asset, number, amount)]
    return DONE, [len(found)], [0] * len(work), after
