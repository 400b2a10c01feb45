"""Sessions for the program: makes the inputs, the arguments and the expected output of the crate
crates/cases_book, which runs the book runner on one file after another.

    python3 tests/cases/book.py

The program under test has no part in this: every output comes from tests/reference.
"""
import os
import subprocess
import sys

HERE = os.path.dirname(os.path.abspath(__file__))
TOP = os.path.join(HERE, "..", "..")
REFERENCE = os.path.join(HERE, "..", "reference")
CEILING = 10 ** 15


def lines(*calls):
    return b"".join("\t".join(str(n) for n in c).encode() + b"\n" for c in calls)


def first():
    with open(os.path.join(TOP, "examples", "first.tsv"), "rb") as file:
        return file.read()


def limits():
    """Both sides of every limit that a session reaches."""
    calls = []
    # 65 deposits: the last is refused, and taken once one is claimed
    calls += [("deposit", n, 3, 100, 2) for n in range(1, 65)] + [("deposit", 65, 3, 100, 2)]
    calls += [("claim", 2, 1, 3, 100), ("deposit", 65, 3, 100, 2)]
    calls += [("claim", 2, n, 3, 100) for n in range(2, 66)]
    # payment 33, and once more after one has settled
    calls += [("withdraw", 2, 3, 1, 7)] * 33 + [("send",), ("withdraw", 2, 3, 1, 7), ("settle", 0), ("withdraw", 2, 3, 1, 7)]
    # fields
    for member in (0, 1, 16, 17):
        calls += [("deposit", 66, 3, 1, member), ("sign", member, 1), ("transfer", 2, member, 3, 1), ("grant", 1, member, 2)]
    for asset in (0, 1, 8, 9):
        calls += [("withdraw", 2, asset, 1, 7), ("grant", 1, 3, asset)]
    for payee in (0, 1, 65535, 65536):
        calls += [("send",), ("settle", 1), ("withdraw", 2, 3, 1, payee)]
    for amount in (0, 1, CEILING, CEILING + 1, 2 ** 64 - 1):
        calls += [("transfer", 2, 4, 3, amount), ("deposit", 68, 4, amount, 2)]
    # the ceiling of an asset, and numbers at and past their ends
    calls += [("deposit", 68, 5, CEILING - 1, 2), ("deposit", 69, 5, 2, 2), ("deposit", 69, 5, 1, 2), ("deposit", 70, 5, 1, 2)]
    calls += [("deposit", n, 3, 1, 2) for n in (0, 69, 71, 2 ** 32 - 1, 2 ** 32, 2 ** 64 - 1)]
    # the history filled to record 1,024, and one more of each recorded call
    calls += [("grant", 1, 2, 7), ("grant", 2, 1, 7)] * 520
    calls += [("transfer", 2, 4, 3, 1), ("withdraw", 2, 3, 1, 7), ("claim", 2, 68, 5, CEILING - 1), ("grant", 1, 2, 7)]
    calls += [("deposit", 70, 3, 1, 2), ("send",), ("settle", 1), ("sign", 1, 7), ("trace", 0), ("trace", 33), ("trace", 99)]
    return lines(*calls)


def malformed():
    good = b"deposit\t1\t3\t500\t2"
    kinds = [
        b"", b"\t", b"deposit", b"deposit\t", b"deposit\t1\t3\t500", b"deposit\t1\t3\t500\t", good + b"\t", good + b"\t1",
        b"\t" + good, b" " + good, good + b" ", b"deposit 1 3 500 2", b"deposit\t1\t3\t\t2", b"deposit\t\t3\t500\t2",
        b"deposit\t1\t3\t+500\t2", b"deposit\t1\t3\t-500\t2", b"deposit\t1\t3\t0500\t2", b"deposit\t1\t3\t00\t2",
        b"deposit\t1\t3\t18446744073709551616\t2", b"deposit\t1\t3\t99999999999999999999\t2",
        b"deposit\t1\t3\t100000000000000000000\t2", b"deposit\t1\t3\t18446744073709551615\t2",
        b"deposit\t1\t3\t5e2\t2", b"deposit\t1\t3\t0x10\t2", b"deposit\t1\t3\t500.0\t2", b"deposit\t1\t3\t5 00\t2",
        good + b"\r", good + b"\x00", b"\x00" + good, b"deposit\t1\t3\t5\x0000\t2", b"deposit\t1\t3\t\xff\xfe\t2", b"\x80\x81",
        b"Deposit\t1\t3\t500\t2", b"deposi\t1\t3\t500\t2", b"deposits\t1\t3\t500\t2", b"send\t", b"send\t0", b"sendx", b"sen",
        b"settle", b"settle\t", b"settle\t0\t0", b"trace", b"trace\t0\t", b"sign\t1", b"sign\t1\t5\t5", b"grant\t1\t2",
        b"claim\t2\t1\t3", b"transfer\t2\t4\t3\t200\t1", b"withdraw\t4\t3\t350\t77\t", b"end\t0\t0", b"1\t0",
        b"x" * 120, b"x" * 121, b"x" * 122, b"deposit\t" * 15, b"\t" * 120, b"\t" * 121, b"9" * 121,
        b"y" * (1 << 20), good,
    ]
    return b"\n".join(kinds) + b"\n"


# A call of each word, all of whose fields read.
GOOD = [b"deposit\t1\t3\t500\t2", b"claim\t2\t1\t3\t500", b"transfer\t2\t4\t3\t200", b"withdraw\t4\t3\t350\t77", b"send",
        b"settle\t0", b"grant\t1\t2\t5", b"sign\t1\t5", b"trace\t0"]


def with_field(line, place, field):
    fields = line.split(b"\t")
    return b"\t".join(fields[:place] + [field] + fields[place + 1:])


def each_place():
    """Each field of each call absent, no number, the largest number and the next, 20 and 21 digits; and again
    with a field at fault after it."""
    kinds = [b"", b"2x0", b"02", b"-1", b"18446744073709551615", b"18446744073709551616", b"10000000000000000000",
             b"99999999999999999999", b"100000000000000000000"]
    for line in GOOD:
        fields = line.split(b"\t")
        for place in range(1, len(fields)):
            yield b"\t".join(fields[:place])
            for kind in kinds:
                yield with_field(line, place, kind)
                yield with_field(line, place, kind) + b"\tx"


def each_word():
    """The words that are none, and tabs and fields too many at each call."""
    for line in GOOD:
        word, *fields = line.split(b"\t")
        for wrong in (word.upper(), word[:-1], word + b"s", word + b" ", b"pay", b""):
            yield b"\t".join([wrong, *fields])
        for end in (b"", b"\t", b"\t\t", b"\t1", b"\tx", b"\t1" * 30):
            yield line + end
        for place in range(len(fields)):  # two tabs
            yield b"\t".join([word, *fields[:place], b"", *fields[place:]])


def long_starts():
    """What a long line begins with: a word that is none, a field at fault, or what reads up to any field of a call."""
    yield from (b"", b"x", b"pay\t", b"\t", b"transfer\t02\t", b"transfer\t2\tx\t3\t", b"deposit\t1\t\t")
    for line in GOOD:
        fields = line.split(b"\t")
        yield line
        yield from (b"\t".join(fields[:count]) + b"\t" for count in range(1, len(fields) + 1))


def each_length():
    """Lines of about 120 bytes and more: a long word or field, fields and tabs without end, and what is at fault
    only after a long field."""
    for start in long_starts():
        for fill in (b"7", b"0", b"\t", b"\t1"):
            yield from ((start + fill * length)[:length] for length in (119, 120, 121, 122, 130))
    for length in (120, 121, 122, 130, 5_000):
        yield from (b"x" * length, b"settle\t" + b"7" * (length - 7), (b"sign\t1\t5" + b"\t5" * length)[:length])
        for end in (b"\t", b"\tx", b"\t02\t1"):
            yield b"settle\t" + b"7" * (length - 7 - len(end)) + end


def named_fields():
    """Lines with a field at fault, of every kind, and a call after each."""
    kinds = [b"deposit\t3\t3\t\t2", b"pay\t2\t4\t3\t200", b"", b"SEND", b"\tsend", b"deposit\t1\t3", b"transfer\t2\t4\t3\t2x0",
             b"transfer\t2\t4\t3\t200\t1", b"transfer\t2\t4\t3\t200\t", b"send\t", b"transfer\t02\t4\t3\t200\t1",
             b"pay\t" + b"7" * 126, b"deposit\t1\t" + b"7" * 130]
    kinds += [*each_place(), *each_word(), *each_length()]
    return b"".join(kind + b"\nsign\t1\t5\n" for kind in kinds)


def unfinished():
    """Sessions that end in an unfinished line: each call with all its fields, with the last one missing, with one
    too many; other fields at fault; and lines of 120 bytes and more."""
    ends = {}
    for line in GOOD:
        word, *fields = line.split(b"\t")
        name = word.decode()
        ends[name] = line
        ends[f"{name}_too_many"] = line + b"\t1"
        if fields:
            ends[f"{name}_missing"] = b"\t".join([word, *fields[:-1]])
    ends.update({
        "no_word": b"sen", "tab": b"\t", "tab_last": b"send\t", "empty_last": b"sign\t1\t", "not_the_last": b"transfer\t02\t4\t3\tx",
        "120_bytes": b"settle\t" + b"9" * 113, "121_bytes": b"settle\t" + b"9" * 114, "long_word": b"x" * 130,
        "long_field": b"deposit\t1\t" + b"7" * 130, "long_too_many": b"grant\t1\t2\t5" + b"\t1" * 60,
        "over_a_read": b"sign\t1\t" + b"9" * 70_000,
    })
    return {f"unfinished_{name}": (lambda end=end: b"sign\t1\t5\n" + end) for name, end in ends.items()}


def seeded(seed):
    return subprocess.run([sys.executable, os.path.join(REFERENCE, "sessions.py"), str(seed), "4000"], check=True, stdout=subprocess.PIPE).stdout


CASES = {
    "first": first, "empty": lambda: b"", "limits": limits, "malformed": malformed, "named_fields": named_fields,
    "unfinished": lambda: b"deposit\t1\t3\t500\t2\nsign\t1\t5\nclaim\t2\t1\t3\t500", **unfinished(),
    "most_lines": lambda: b"\n" * 100_000, "too_many_lines": lambda: b"sign\t1\t5\n" * 100_001,
    **{f"seed{seed}": (lambda seed=seed: seeded(seed)) for seed in range(1, 11)},
}


def main():
    crate = os.path.join(TOP, "crates", "cases_book")
    os.makedirs(os.path.join(crate, "data"), exist_ok=True)
    stdout = b""
    for name, make in CASES.items():
        given = make()
        wanted = subprocess.run([sys.executable, os.path.join(REFERENCE, "book.py")], input=given, check=True, stdout=subprocess.PIPE).stdout
        with open(os.path.join(crate, "data", name), "wb") as out:
            out.write(given)
        stdout += wanted
        print(name, wanted.splitlines()[-1].decode())
    # a folder opens and cannot be read: nothing is written of it, not even `end`
    with open(os.path.join(crate, "args"), "w") as out:
        out.write("\n".join([".", *CASES]) + "\n")
    with open(os.path.join(crate, "stdout"), "wb") as out:
        out.write(stdout)


if __name__ == "__main__":
    main()
