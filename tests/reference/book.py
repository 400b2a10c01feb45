#!/usr/bin/env python3
"""Reference book runner, written from documents 01 and 02 alone.

    python3 book.py < session.tsv > expected.tsv

Each rule stands next to the sentence that asks for it (in quotes): of document
01, or of the request of document 02 that is named.  Only Python's standard
library is used.
"""
import re
import sys
from collections import defaultdict, deque

# The table of limits.
MEMBERS, ASSETS, DOMAINS = 16, 8, 8
CEILING = 1_000_000_000_000_000
LAST_PAYEE = 65_535
LAST_NUMBER = 4_294_967_295  # "deposit number | at most 4,294,967,295"
INBOX_ROWS, OUTBOX_ROWS, HISTORY_ROWS = 64, 32, 1_024
LINE_BYTES, SESSION_LINES = 120, 100_000
LAST_U64 = 18_446_744_073_709_551_615

# The table of reply numbers.
(DONE, MALFORMED, BAD_BOOK, BAD_MEMBER, BAD_ASSET, BAD_DOMAIN, BAD_AMOUNT,
 BAD_PAYEE, SAME_MEMBER, OLD, GAP, OVER_CEILING, INBOX_FULL, NO_SUCH_DEPOSIT,
 SHORT, NOT_HOLDER, OUTBOX_FULL, HISTORY_FULL, NOTHING_WAITING, NOT_NEXT,
 TABLE_SMALL, NO_SUCH_PAYMENT) = range(22)

# "Kind numbers are 1 to 4 and nothing else."
CLAIM, TRANSFER, WITHDRAWAL, GRANT = 1, 2, 3, 4


# A field is outside its limit.
def bad_member(member):
    return not 1 <= member <= MEMBERS


def bad_asset(asset):
    return not 1 <= asset <= ASSETS


def bad_domain(domain):
    return not 1 <= domain <= DOMAINS


def bad_amount(amount):
    return not 1 <= amount <= CEILING


def bad_payee(payee):
    return not 1 <= payee <= LAST_PAYEE


def smallest(refusals):
    # "Where several of a call's refusals apply, the smallest number is given."
    # 0 Done is given when "nothing below applies".
    return min((number for number, applies in refusals if applies), default=DONE)


class Book:
    """The desk and its three tables.  Each call gives (reply number, values)."""

    def __init__(self):
        # "An empty book has all balances, totals and counts 0, last deposit
        # number 0, next nonce 0, and member 1 holding every domain."
        self.balance = {(member, asset): 0
                        for member in range(1, MEMBERS + 1)
                        for asset in range(1, ASSETS + 1)}
        self.holder = {domain: 1 for domain in range(1, DOMAINS + 1)}
        self.lifetime = {asset: 0 for asset in range(1, ASSETS + 1)}
        self.settled = {asset: 0 for asset in range(1, ASSETS + 1)}
        self.last_deposit = 0
        self.next_nonce = 0
        self.in_flight = 0  # the first so many outbox rows are in flight
        self.inbox = []     # (number, asset, amount, member)
        self.outbox = []    # (asset, amount, payee, nonce)
        self.history = []   # (kind, asset, amount, first, second)
        self.traced = (0, [])  # records replayed so far, pieces of each payment

    def deposit(self, number, asset, amount, member):
        refusal = smallest([
            (BAD_MEMBER, bad_member(member)),
            (BAD_ASSET, bad_asset(asset)),
            (BAD_AMOUNT, bad_amount(amount)),
            # "deposit number at most the last accepted"
            (OLD, number <= self.last_deposit),
            # "deposit number above last + 1, or above 4,294,967,295"
            (GAP, number > self.last_deposit + 1 or number > LAST_NUMBER),
            # "lifetime deposits of the asset would pass the ceiling"
            (OVER_CEILING, self.lifetime.get(asset, 0) + amount > CEILING),
            # "64 unclaimed"
            (INBOX_FULL, len(self.inbox) == INBOX_ROWS),
        ])
        if refusal:  # "A refused deposit does not use its number."
            return refusal, []
        # "Added at the end of the inbox."
        self.inbox.append((number, asset, amount, member))
        self.last_deposit = number
        self.lifetime[asset] += amount
        return DONE, []

    def claim(self, member, number, asset, amount):
        refusal = smallest([
            (BAD_MEMBER, bad_member(member)),
            (BAD_ASSET, bad_asset(asset)),
            (BAD_AMOUNT, bad_amount(amount)),
            # "no unclaimed deposit matches all four fields"
            (NO_SUCH_DEPOSIT, (number, asset, amount, member) not in self.inbox),
            (HISTORY_FULL, len(self.history) == HISTORY_ROWS),
        ])
        if refusal:
            return refusal, []
        # "the unclaimed deposit with exactly these four leaves the inbox, the
        # rest keeping their order, and the balance grows"
        self.inbox.remove((number, asset, amount, member))
        self.balance[member, asset] += amount
        self.history.append((CLAIM, asset, amount, member, number))
        return DONE, []

    def transfer(self, sender, receiver, asset, amount):
        refusal = smallest([
            (BAD_MEMBER, bad_member(sender) or bad_member(receiver)),
            (BAD_ASSET, bad_asset(asset)),
            (BAD_AMOUNT, bad_amount(amount)),
            # "transfer or grant to oneself"
            (SAME_MEMBER, sender == receiver),
            # "balance below the amount"
            (SHORT, self.balance.get((sender, asset), 0) < amount),
            (HISTORY_FULL, len(self.history) == HISTORY_ROWS),
        ])
        if refusal:
            return refusal, []
        self.balance[sender, asset] -= amount
        self.balance[receiver, asset] += amount
        self.history.append((TRANSFER, asset, amount, sender, receiver))
        return DONE, []

    def withdraw(self, member, asset, amount, payee):
        refusal = smallest([
            (BAD_MEMBER, bad_member(member)),
            (BAD_ASSET, bad_asset(asset)),
            (BAD_AMOUNT, bad_amount(amount)),
            (BAD_PAYEE, bad_payee(payee)),
            # "balance below the amount"
            (SHORT, self.balance.get((member, asset), 0) < amount),
            # "32 payments, waiting or in flight"
            (OUTBOX_FULL, len(self.outbox) == OUTBOX_ROWS),
            (HISTORY_FULL, len(self.history) == HISTORY_ROWS),
        ])
        if refusal:
            return refusal, []
        # "the balance falls; asset, amount, payee and the next nonce join the
        # end of the outbox, and the next nonce rises by 1"
        self.balance[member, asset] -= amount
        self.outbox.append((asset, amount, payee, self.next_nonce))
        self.next_nonce += 1
        self.history.append((WITHDRAWAL, asset, amount, member, payee))
        return DONE, []  # "The answer carries no nonce."

    def send(self):
        refusal = smallest([
            # "send with no waiting payment"
            (NOTHING_WAITING, self.in_flight == len(self.outbox)),
        ])
        if refusal:
            return refusal, []
        # "the oldest waiting payment becomes in flight; the answer gives
        # nonce, asset, amount, payee.  It keeps its outbox row."
        asset, amount, payee, nonce = self.outbox[self.in_flight]
        self.in_flight += 1
        return DONE, [nonce, asset, amount, payee]

    def settle(self, nonce):
        refusal = smallest([
            # "nothing in flight, or the oldest has another nonce"
            (NOT_NEXT, self.in_flight == 0 or self.outbox[0][3] != nonce),
        ])
        if refusal:
            return refusal, []
        # "it leaves the outbox and the asset's settled total grows"
        asset, amount, _payee, _nonce = self.outbox.pop(0)
        self.in_flight -= 1
        self.settled[asset] += amount
        return DONE, []

    def grant(self, sender, receiver, domain):
        refusal = smallest([
            (BAD_MEMBER, bad_member(sender) or bad_member(receiver)),
            (BAD_DOMAIN, bad_domain(domain)),
            # "transfer or grant to oneself"
            (SAME_MEMBER, sender == receiver),
            # "the domain is another's"
            (NOT_HOLDER, self.holder.get(domain) != sender),
            (HISTORY_FULL, len(self.history) == HISTORY_ROWS),
        ])
        if refusal:
            return refusal, []
        # "the domain passes to another member"
        self.holder[domain] = receiver
        # "4 grant (domain in the asset place, amount 1, from, to)"
        self.history.append((GRANT, domain, 1, sender, receiver))
        return DONE, []

    def sign(self, member, domain):
        # "allowed exactly if the member holds the domain.  Changes nothing."
        return smallest([
            (BAD_MEMBER, bad_member(member)),
            (BAD_DOMAIN, bad_domain(domain)),
            (NOT_HOLDER, self.holder.get(domain) != member),
        ]), []

    def trace(self, nonce):
        # The history only grows, so it is replayed again only after it grew.
        if self.traced[0] != len(self.history):
            self.traced = (len(self.history), pieces_of_payments(self.history))
        payments = self.traced[1]
        refusal = smallest([
            # "no withdrawal has this nonce".  The runner's own tables have
            # 1,024 rows, so 20 TableSmall cannot occur here (see frame.py).
            (NO_SUCH_PAYMENT, nonce >= len(payments)),
        ])
        if refusal:
            return refusal, []
        # "after a Done trace also the piece count and then deposit number and
        # amount for each piece"
        pieces = payments[nonce]
        return DONE, [len(pieces)] + [value for piece in pieces for value in piece]

    def provenance(self, member, asset):
        # "A library question gives it (replies 0, 2, 3, 4)"; 2 is in frame.py.
        refusal = smallest([
            (BAD_MEMBER, bad_member(member)),
            (BAD_ASSET, bad_asset(asset)),
        ])
        if refusal:
            return refusal, []
        return DONE, [provenance_of(self.history, member, asset)]


def provenance_of(history, member, asset):
    # "claims plus transfers in, less transfers out and withdrawals, worked out
    # by going back through the history, one record fewer each time"
    total = 0
    for kind, record_asset, amount, first, second in reversed(history):
        if kind == GRANT or record_asset != asset:
            continue
        if kind == CLAIM and first == member:
            total += amount
        elif kind == TRANSFER:
            total += amount * ((second == member) - (first == member))
        elif kind == WITHDRAWAL and first == member:
            total -= amount
    return total


def pieces_of_payments(history):
    """The pieces of payment 0, 1, 2, ... as lists of (deposit number, amount)."""
    # "Replay the history."  "Payment n is the withdrawal with n withdrawals
    # before it."
    lines = defaultdict(deque)  # (member, asset): lots (deposit number, amount)
    payments = []
    for kind, asset, amount, first, second in history:
        if kind == CLAIM:
            # "A claim puts a lot (deposit number, amount) at the end of that
            # member's line for that asset."
            lines[first, asset].append((second, amount))
        elif kind == TRANSFER:
            # "the pieces join the receiver's line in the order taken.  Equal
            # deposit numbers are not joined."
            lines[second, asset].extend(take(lines[first, asset], amount))
        elif kind == WITHDRAWAL:
            # "A withdrawal takes in the same way, and its pieces are the trace."
            payments.append(take(lines[first, asset], amount))
    return payments


def take(line, amount):
    # "takes from the front of the sender's line until the amount is met; the
    # last lot is split if need be, its remainder staying in front"
    pieces = []
    while amount > 0:
        number, lot = line.popleft()
        piece = min(lot, amount)
        if piece < lot:
            line.appendleft((number, lot - piece))
        pieces.append((number, piece))
        amount -= piece
    return pieces


# "Words: ..., then the fields in the order above (`trace` has a nonce)."
FIELDS = {b"deposit": 4, b"claim": 4, b"transfer": 4, b"withdraw": 4, b"send": 0,
          b"settle": 1, b"grant": 3, b"sign": 2, b"trace": 1}

# "1 to 20 decimal digits, no sign, no leading zero except `0` itself"
NUMBER = re.compile(rb"0|[1-9][0-9]{0,19}")


def is_number(field):
    # "Each field is a number or the line is refused: ..., at most
    # 18,446,744,073,709,551,615."
    return NUMBER.fullmatch(field) is not None and int(field) <= LAST_U64


def read_line(line):
    """(call, None) for one of the nine calls, itself (word, number, ...);
    (None, field) for Malformed, with the number of the field that is at fault."""
    # "Fields are parted by one tab."
    word, *fields = line.removesuffix(b"\n").split(b"\t")
    # Request 01: "the word is field 0".
    if word not in FIELDS:
        return None, 0
    # Request 01: "the field where reading failed".  A field that is absent has
    # the number that it would have.
    for place in range(1, FIELDS[word] + 1):
        if place > len(fields) or not is_number(fields[place - 1]):
            return None, place
    # Request 01: "one too many the next number".
    if len(fields) > FIELDS[word]:
        return None, FIELDS[word] + 1
    # "each line ends with one line feed and has at most 120 bytes before it";
    # "An unfinished last line is Malformed."  Request 01: "An over-long or
    # unfinished line gives the first field that does not read, or, if all read,
    # their count with the word."
    if not line.endswith(b"\n") or len(line) - 1 > LINE_BYTES:
        return None, len([word, *fields])
    return (word.decode(), *map(int, fields)), None


def step(book, call):
    """The answer of one call, itself (word, number, ...)."""
    word, *numbers = call
    return getattr(book, word)(*numbers)


def write_line(*values):
    # "Output uses tabs and line feeds in the same way."
    return "\t".join(str(value) for value in values).encode() + b"\n"


def run(source, sink):
    # "The book runner reads standard input, starts from an empty book, and
    # stops after 100,000 lines."
    book = Book()
    done = other = 0
    for line_number in range(1, SESSION_LINES + 1):
        line = source.readline()
        if not line:
            break
        call, field = read_line(line)
        # Request 01: "The runner adds the field number after reply 1."
        reply, values = step(book, call) if call else (MALFORMED, [field])
        if reply == DONE:
            done += 1
        else:
            other += 1
        # "For each line it writes line number and reply number", then values.
        sink.write(write_line(line_number, reply, *values))
    # "Last comes `end`, the number of replies 0 and of other replies."
    sink.write(write_line("end", done, other))
    sink.flush()


if __name__ == "__main__":
    run(sys.stdin.buffer, sys.stdout.buffer)
