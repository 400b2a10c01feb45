#!/usr/bin/env python3
"""Seeded maker of sessions for the book runner.

    python3 sessions.py SEED LINES > session.tsv
    python3 sessions.py --cover FIRST-LAST LINES

The same seed and length give the same bytes.  Most lines are calls that make
sense in the book reached so far, so that deep states come up; some are calls
with one wrong field, some are malformed.  --cover shows which reply numbers the
sessions of a range of seeds reach, call word by call word, and which fields the
malformed lines fail at.
"""
import io
import random
import sys
from collections import Counter

from book import (
    ASSETS, CEILING, DOMAINS, FIELDS, LAST_NUMBER, LAST_PAYEE, LAST_U64, MALFORMED,
    MEMBERS, Book, read_line, step)

# The reply numbers each word can get in a session: 2 and 20 never occur.
POSSIBLE = {
    "deposit": [0, 3, 4, 6, 9, 10, 11, 12],
    "claim": [0, 3, 4, 6, 13, 17],
    "transfer": [0, 3, 4, 6, 8, 14, 17],
    "withdraw": [0, 3, 4, 6, 7, 14, 16, 17],
    "send": [0, 18],
    "settle": [0, 19],
    "grant": [0, 3, 5, 8, 15, 17],
    "sign": [0, 3, 5, 15],
    "trace": [0, 21],
}

# A session passes through moods; each weighs the words in its own way.
#            deposit claim transfer withdraw send settle grant sign trace
MOODS = {
    "even":     (10,  10,    10,       6,     6,    6,     1,    1,   3),
    "notices":  (40,   2,     2,       1,     1,    1,     1,    1,   1),
    "claims":   (4,   30,     4,       2,     1,    1,     1,    1,   1),
    "moves":    (3,    4,    40,       3,     3,    3,     1,    1,   4),
    "payments": (6,    8,     2,      40,     4,    0,     0,    0,   2),
    "clearing": (2,    4,     2,       2,    25,   25,     1,    1,   4),
    "domains":  (2,    2,     2,       1,     1,    1,    15,   15,   1),
}
WORDS = [word.decode() for word in FIELDS]

EDGES = [0, 1, MEMBERS, MEMBERS + 1, ASSETS, ASSETS + 1, LAST_PAYEE, LAST_PAYEE + 1,
         LAST_NUMBER, LAST_NUMBER + 1, CEILING, CEILING + 1, LAST_U64]


def line_of(call):
    return "\t".join(str(value) for value in call).encode()


class Maker:
    def __init__(self, seed):
        self.rng = random.Random(seed)
        self.book = Book()
        # Few members and assets give long lines of lots, many give wide books.
        self.members = self.some(range(1, MEMBERS + 1), (2, 3, 5, MEMBERS))
        self.assets = self.some(range(1, ASSETS + 1), (1, 2, 4, ASSETS))
        # In a rich asset the ceiling is soon near.
        self.rich = set(self.some(self.assets[1:] or self.assets, (0, 1, 2)))
        self.wrong_share = self.rng.choice((0.02, 0.1, 0.25))
        self.malformed_share = self.rng.choice((0.005, 0.03, 0.1))
        self.mood, self.mood_left = "even", 0

    def some(self, values, sizes):
        return self.rng.sample(list(values), min(self.rng.choice(sizes), len(values)))

    def line(self):
        """The next line, without its line feed; a call is made in the book too."""
        if self.mood_left == 0:
            self.mood = self.rng.choice(list(MOODS))
            self.mood_left = self.rng.randint(10, 150)
        self.mood_left -= 1
        word = self.rng.choices(WORDS, MOODS[self.mood])[0]
        call = (word, *getattr(self, word)())
        if len(call) > 1 and self.rng.random() < self.wrong_share:
            call = self.with_wrong_field(call)
        if self.rng.random() < self.malformed_share:
            return self.malformed(call)
        step(self.book, call)
        return line_of(call)

    # The numbers of a call that makes sense in this book, if there is one.

    def deposit(self):
        rooms = {asset: CEILING - self.book.lifetime[asset] for asset in self.assets}
        asset = self.rng.choice([a for a in self.assets if rooms[a]] or self.assets)
        room = rooms[asset]
        if asset in self.rich:
            amount = self.rng.choice((room, room // 2, self.rng.randint(1, CEILING)))
        else:
            amount = self.rng.choice((1, 7, 100, self.rng.randint(1, 5000)))
        return (self.book.last_deposit + 1, asset,
                min(max(amount, 1), max(room, 1)), self.rng.choice(self.members))

    def claim(self):
        if not self.book.inbox:
            return (self.rng.choice(self.members), self.book.last_deposit,
                    self.rng.choice(self.assets), 1)
        row = self.rng.choice((self.rng.choice(self.book.inbox), self.book.inbox[0]))
        number, asset, amount, member = row
        return member, number, asset, amount

    def part_of_balance(self):
        """A member, an asset and an amount the member has."""
        held = [key for key, balance in self.book.balance.items() if balance]
        if not held:
            return self.rng.choice(self.members), self.rng.choice(self.assets), 1
        member, asset = self.rng.choice(held)
        balance = self.book.balance[member, asset]
        return member, asset, self.rng.choice(
            (balance, 1, (balance + 1) // 2, self.rng.randint(1, balance),
             self.rng.randint(1, min(balance, 50))))

    def other(self, member):
        return self.rng.choice([m for m in self.members if m != member])

    def transfer(self):
        member, asset, amount = self.part_of_balance()
        return member, self.other(member), asset, amount

    def withdraw(self):
        # Small payments, mostly, so that balances last.
        member, asset, amount = self.part_of_balance()
        if self.rng.random() < 0.7:
            amount = min(amount, self.rng.randint(1, 40))
        return member, asset, amount, self.rng.choice((1, 77, self.rng.randint(1, LAST_PAYEE)))

    def send(self):
        return ()

    def settle(self):
        return (self.book.outbox[0][3] if self.book.outbox else self.book.next_nonce,)

    def grant(self):
        domain = self.rng.randint(1, DOMAINS)
        return self.book.holder[domain], self.other(self.book.holder[domain]), domain

    def sign(self):
        domain = self.rng.randint(1, DOMAINS)
        return self.book.holder[domain], domain

    def trace(self):
        return (self.rng.randrange(max(self.book.next_nonce, 1)),)

    def with_wrong_field(self, call):
        """The call with one number replaced; now and then it is still right."""
        call = list(call)
        place = self.rng.randrange(1, len(call))
        value = call[place]
        choices = [value + 1, max(value - 1, 0), self.rng.choice(EDGES),
                   self.rng.choice(call[1:]), self.rng.randint(1, MEMBERS)]
        if call[0] in ("transfer", "withdraw"):  # a unit more than is there
            amount = {"transfer": 4, "withdraw": 3}[call[0]]
            asset = call[amount - 1]
            if self.rng.random() < 0.3:
                place = amount
                choices = [self.book.balance[call[1], asset] + 1]
        if call[0] == "deposit" and self.rng.random() < 0.3:  # a unit over the ceiling
            place, choices = 3, [CEILING - self.book.lifetime[call[2]] + 1]
        call[place] = self.rng.choice(choices)
        return tuple(call)

    def malformed(self, call):
        line = MALFORMED_KINDS[self.rng.choice(list(MALFORMED_KINDS))](self.rng, call)
        assert read_line(line + b"\n")[0] is None, line
        return line


# Every kind of malformed line: name -> (rng, a call) -> the line.

def change_field(change):
    """A line in which one field, as bytes, is changed."""
    def make(rng, call):
        if len(call) == 1:  # send has no field: take another call
            call = ("settle", 7)
        fields = line_of(call).split(b"\t")
        place = rng.randrange(1, len(fields))
        fields[place] = change(rng, fields[place])
        return b"\t".join(fields)
    return make


def change_line(change):
    return lambda rng, call: change(rng, line_of(call))


def any_byte(rng, without=b"\n"):
    return bytes([rng.choice([b for b in range(256) if b not in without])])


def of_length(length):
    """A line of so many bytes: one number too long, or a call and filling."""
    def make(rng, call):
        fill = rng.choice((b"0", b"9", b"\t", b" ", b"\0", b"x", b"\xff"))
        start = rng.choice((line_of(call), line_of(call) + b"\t", b""))
        return start + fill * (length - len(start))
    return make


MALFORMED_KINDS = {
    "blank line": lambda rng, call: b"",
    "empty field": change_field(lambda rng, f: b""),
    "plus sign": change_field(lambda rng, f: b"+" + f),
    "minus sign": change_field(lambda rng, f: b"-" + f),
    "leading zero": change_field(lambda rng, f: b"0" * rng.randint(1, 3) + f),
    "2^64": change_field(lambda rng, f: str(LAST_U64 + 1).encode()),
    "20 digits above": change_field(
        lambda rng, f: str(rng.randint(LAST_U64 + 1, 10**20 - 1)).encode()),
    "21 digits": change_field(lambda rng, f: str(rng.randint(10**20, 10**21 - 1)).encode()),
    "not decimal": change_field(
        lambda rng, f: rng.choice((f + b".0", f + b"e1", b"0x" + f, f + b"_0", b"1,000"))),
    "letter": change_field(lambda rng, f: rng.choice((b"a", b"-", b"/", b":", f + b"l"))),
    "blank beside number": change_field(lambda rng, f: rng.choice((b" " + f, f + b" "))),
    "other digits": change_field(lambda rng, f: "\u0663".encode()),  # Arabic-Indic three
    "NUL in field": change_field(lambda rng, f: rng.choice((b"\0" + f, f + b"\0", b"\0"))),
    "byte above 127": change_field(lambda rng, f: f + bytes([rng.randint(128, 255)])),
    "tab at end": change_line(lambda rng, s: s + b"\t"),
    "tab at start": change_line(lambda rng, s: b"\t" + s),
    "two tabs": lambda rng, call: line_of((*call, 1)).replace(b"\t", b"\t\t", 1),
    "field too many": change_line(lambda rng, s: s + b"\t1"),
    "field too few": lambda rng, call: line_of(call[:-1]),  # for send: a blank line
    "tab lost": lambda rng, call: line_of((*call, 1)[:2]).replace(b"\t", b"", 1),
    "blanks for tabs": lambda rng, call: line_of((*call, 1)).replace(b"\t", b" "),
    "CR at end": change_line(lambda rng, s: s + b"\r"),
    "NUL at end": change_line(lambda rng, s: s + b"\0"),
    "NUL at start": change_line(lambda rng, s: b"\0" + s),
    "byte order mark": change_line(lambda rng, s: b"\xef\xbb\xbf" + s),
    "upper case": change_line(lambda rng, s: rng.choice((s.upper(), s.capitalize()))),
    "unknown word": lambda rng, call: line_of(
        (rng.choice(("cancel", "void", "end", "sends", "sen", "0", "")), *call[1:])),
    "any bytes": lambda rng, call: b"#" + b"".join(
        any_byte(rng) for _ in range(rng.randint(0, 130))),
    "120 bytes": of_length(120),
    "121 bytes": of_length(121),
    "122 bytes": of_length(122),
    "very long": of_length(5_000),
}


def session(seed, lines):
    """The bytes of a session; in every fourth seed the last line is unfinished."""
    maker = Maker(seed)
    made = [maker.line() + b"\n" for _ in range(lines)]
    if made and seed % 4 == 3:
        made[-1] = maker.rng.choice((b"send", b"sen", b"sign\t1\t", b"settle\t0", b"\0",
                                     b"trace\t0\t0", b"grant\t1\t" + b"9" * 130))
    return b"".join(made)


def cover(seeds, lines):
    """Per word, how often each reply number was reached over the seeds; and how
    often each field was the one for which a line is malformed."""
    reached = {word: Counter() for word in POSSIBLE}
    malformed = Counter()
    for seed in seeds:
        book = Book()
        for line in io.BytesIO(session(seed, lines)):  # parts at line feeds only
            call, field = read_line(line)
            if call is None:
                malformed[field] += 1
            else:
                reached[call[0]][step(book, call)[0]] += 1
    return reached, malformed


def main(arguments):
    if len(arguments) == 3 and arguments[0] == "--cover":
        first, _, last = arguments[1].partition("-")
        seeds = range(int(first), int(last or first) + 1)
        reached, malformed = cover(seeds, int(arguments[2]))
        told = "  ".join(f"{field}:{malformed[field]}" for field in sorted(malformed))
        print(f"malformed lines (reply 1), by field: {told}")
        for word, counts in reached.items():
            told = "  ".join(f"{reply}:{counts[reply]}" for reply in POSSIBLE[word])
            missing = [reply for reply in POSSIBLE[word] if not counts[reply]]
            print(f"{word:9}{told}" + (f"   MISSING {missing}" if missing else ""))
        every = {MALFORMED} if malformed else set()
        every = sorted(every.union(*(set(counts) for counts in reached.values())))
        print("replies reached:", *every)
    elif len(arguments) == 2:
        sys.stdout.buffer.write(session(int(arguments[0]), int(arguments[1])))
    else:
        sys.exit(__doc__.strip())


if __name__ == "__main__":
    main(sys.argv[1:])
