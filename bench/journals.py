"""The money of a session as journals: one for ledger and hledger, one for Beancount."""
import datetime
from collections import defaultdict, deque

import inputs

FIRST_DAY = datetime.date(2020, 1, 1)


class Replay:
    """What the calls of a session do, all of them Done: a movement of money a call, in order. A movement is
    (day, what, asset, amount, from account, to account, pieces); the pieces are (deposit number, amount)."""

    def __init__(self, calls):
        self.deposits, self.payments, self.settled = {}, [], 0
        self.lines = defaultdict(deque)
        self.movements = []
        for count, call in enumerate(calls):
            self.day = FIRST_DAY + datetime.timedelta(days=count)
            getattr(self, call[0], self.no_money)(*call[1:])

    def move(self, what, asset, amount, source, target, pieces):
        self.movements.append((self.day, what, asset, amount, source, target, pieces))

    def no_money(self, *_):
        """send, grant, sign and trace move no money from one account to another."""

    def deposit(self, number, asset, amount, member):
        self.move(f"deposit {number}", asset, amount, "Deposits", "Inbox", [(number, amount)])

    def claim(self, member, number, asset, amount):
        self.lines[member, asset].append((number, amount))
        self.move(f"claim {number}", asset, amount, "Inbox", account(member), [(number, amount)])

    def transfer(self, sender, receiver, asset, amount):
        pieces = inputs.book.take(self.lines[sender, asset], amount)
        self.lines[receiver, asset].extend(pieces)
        self.move("transfer", asset, amount, account(sender), account(receiver), pieces)

    def withdraw(self, member, asset, amount, payee):
        pieces = inputs.book.take(self.lines[member, asset], amount)
        self.move(f"payment {len(self.payments)}", asset, amount, account(member), "Outbox", pieces)
        self.payments.append((asset, amount, pieces))

    def settle(self, nonce):
        asset, amount, pieces = self.payments[nonce]
        self.move(f"settled {nonce}", asset, amount, "Outbox", "Settled", pieces)


def account(member):
    return f"Member{member:02}"


def unit(asset):
    """A commodity's name: XA for asset 1."""
    return "X" + "ABCDEFGH"[asset - 1]


def plain(calls):
    """For ledger and hledger: amounts without lots."""
    return "".join(f"{day} {what}\n    {target}  {amount} {unit(asset)}\n    {source}  -{amount} {unit(asset)}\n\n"
                   for day, what, asset, amount, source, target, _ in Replay(calls).movements).encode()


def in_ledger_lots(calls):
    """For ledger: what comes in has its deposit as a lot; what is paid or passed on names none."""
    def lot(day, pieces):
        return f" {{1 USD}} [{day}] (deposit {pieces[0][0]})"

    text, day_of = "", {}
    for day, what, asset, amount, source, target, pieces in Replay(calls).movements:
        day_of.setdefault(pieces[0][0], day)
        named = lot(day_of[pieces[0][0]], pieces) if what.startswith(("deposit", "claim")) else ""
        text += f"{day} {what}\n    {target}  {amount} {unit(asset)}{named}\n    {source}  -{amount} {unit(asset)}{named}\n\n"
    return text.encode()


# ---- Beancount ----

def par(asset):
    """Beancount's lots have a cost: one unit of this for one unit of the asset."""
    return "P" + "ABCDEFGH"[asset - 1]


def opened():
    assets = [f"Assets:{account(member)}" for member in range(1, 17)] + ["Assets:Inbox", "Assets:Outbox"]
    others = ["Equity:Deposits", "Expenses:Settled"]
    return "".join(f'{FIRST_DAY} open {name} "FIFO"\n' for name in assets) + "".join(f"{FIRST_DAY} open {name}\n" for name in others)


def lots_in(name, asset, day, pieces):
    """A posting for each piece that comes to an account, dated so that what came first is oldest."""
    return "".join(f'  Assets:{name}  {amount} {unit(asset)} {{1 {par(asset)}, {day}, "{number}"}}\n' for number, amount in pieces)


def beancount_postings(movement, transfers_named):
    day, what, asset, amount, source, target, pieces = movement
    kind = what.split()[0]
    if kind == "deposit":
        return lots_in("Inbox", asset, day, pieces) + f"  Equity:Deposits  -{amount} {par(asset)}\n"
    if kind == "claim":
        return f'  Assets:Inbox  -{amount} {unit(asset)} {{"{pieces[0][0]}"}}\n' + lots_in(target, asset, day, pieces)
    if kind == "transfer":
        came = lots_in(target, asset, day, pieces) if transfers_named else f"  Assets:{target}  {amount} {unit(asset)} {{}}\n"
        return f"  Assets:{source}  -{amount} {unit(asset)} {{}}\n" + came
    if kind == "payment":
        return f"  Assets:{source}  -{amount} {unit(asset)} {{}}\n  Assets:Outbox  {amount} {par(asset)}\n"
    return f"  Assets:Outbox  -{amount} {par(asset)}\n  Expenses:Settled  {amount} {par(asset)}\n"


def beancount(calls, transfers_named=True):
    """For Beancount: every account books first in, first out. With transfers_named each transfer names the
    lots that it brings, which is what a trace has to find out."""
    return (opened() + "".join(f'\n{movement[0]} * "{movement[1]}"\n' + beancount_postings(movement, transfers_named)
                               for movement in Replay(calls).movements)).encode()
