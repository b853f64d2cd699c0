#!/usr/bin/env python3
"""The cases of crate `test_texts`, and what each should give, by a model of its own written from the specification.

    tools/texts_cases.py stdin  > crates/test_texts/stdin     the texts, each ended by a zero byte
    tools/texts_cases.py stdout > crates/test_texts/stdout    what the program should print
"""
import re
import sys


def text(*lines):
    return "".join(line.replace(" ", "\t") + "\n" for line in lines).encode()


def header_and(count, line):
    """A routine of one secret and two shares, and `count` lines made by `line(wire)`."""
    return ["routine 1 2"] + [line(2 + k) for k in range(count)]


EXAMPLE_A = ("routine 1 3", "rand 3", "xor 4 0 3", "xor 5 1 3", "rand 6", "xor 7 4 6", "xor 8 2 6", "out 5", "out 7", "out 8")
ALL_KINDS = ("routine 2 2", "rand 4", "pub 5", "xor 6 0 4", "and 7 6 5", "not 8 7", "rand 9", "xor 10 9 9", "pub 11", "and 12 11 3", "out 0", "out 12")
WIRES_128 = header_and(126, lambda w: f"xor {w} {w - 1} {w - 2}")
OUTS_64 = ["routine 1 2"] + [f"not {w} 0" for w in range(2, 70)] + [f"out {w}" for w in range(64)]

CASES = [
    # what is read
    text(*EXAMPLE_A),
    text("routine 1 2"),
    text("routine 8 8"),
    text("routine 1 8"),
    text("routine 8 2"),
    text(*ALL_KINDS),
    text(*WIRES_128),
    text(*header_and(64, lambda w: f"rand {w}")),
    text(*header_and(16, lambda w: f"pub {w}")),
    text(*OUTS_64),
    # 1: empty, 4,097 bytes; 4,096 are read on, to the next fault
    b"",
    b"a" * 4096 + b"\n",
    b"a" * 4095 + b"\n",
    # 2: a bad byte, also far down and before a bad header; no LF at the end
    text("routine 1 2", "Rand 2"),
    text("routine 1 2")[:-1],
    text("rout 1 2", "rand 2") + b"\xff\n",
    b"routine 1 2\n",
    # 3: no header, another word, a number too few, too long, with a leading zero; before 4
    b"\n",
    text("rand 2"),
    text("routine 1"),
    text("routine 1 2 3"),
    text("routine 1 1000"),
    text("routine 9 02"),
    # 4: S and D beyond both ends
    text("routine 0 2"),
    text("routine 9 2"),
    text("routine 1 1"),
    text("routine 1 9"),
    text("routine 1 999"),
    # 5: an empty line, an unknown word, a wrong count of fields, a bad number, a second header, two tabs
    text("routine 1 2", ""),
    text("routine 1 2", "nand 2 0 1"),
    text("routine 1 2", "xor 2 0"),
    text("routine 1 2", "rand 2 0"),
    text("routine 1 2", "rand 02"),
    text("routine 1 2", "rand 1000"),
    text("routine 1 2", "routine 1 2"),
    text("routine 1 2") + b"rand\t\t2\n",
    text("routine 1 2", "rand 2", "xor 3 0 2", "rand"),
    # 6: not the next wire, a wire line after an `out`; before 7, and before 8
    text("routine 1 2", "rand 3"),
    text("routine 1 2", "rand 2", "rand 2"),
    text("routine 1 2", "out 0", "rand 2"),
    text("routine 1 2", "xor 3 9 0"),
    text(*WIRES_128, "xor 129 0 200"),
    text(*header_and(64, lambda w: f"rand {w}"), "out 0", "rand 66"),
    # 7: an operand that is not earlier; before 8
    text("routine 1 2", "xor 2 2 0"),
    text("routine 1 2", "xor 2 0 2"),
    text("routine 1 2", "not 2 5"),
    text("routine 1 2", "and 2 0 999"),
    text(*WIRES_128, "xor 128 0 128"),
    # 8: the 129th wire, the 65th random, the 17th public, the 65th output, which also does not ascend
    text(*WIRES_128, "xor 128 0 1"),
    text(*WIRES_128, "rand 128"),
    text(*header_and(64, lambda w: f"rand {w}"), "rand 66"),
    text(*header_and(16, lambda w: f"pub {w}"), "pub 18"),
    text(*OUTS_64, "out 64"),
    text(*OUTS_64, "out 3"),
    text(*OUTS_64, "out 999"),
    # 9: no wire, not above the previous one
    text("routine 1 2", "out 2"),
    text("routine 1 2", "out 1", "out 1"),
    text("routine 1 2", "out 1", "out 0"),
    text(*EXAMPLE_A, "out 8"),
]


# ---- the model

def number(field):
    return int(field) if re.fullmatch(rb"0|[1-9][0-9]{0,2}", field) else None


ARITY = {b"rand": 1, b"pub": 1, b"xor": 3, b"and": 3, b"not": 2, b"out": 1}


class Refused(Exception):
    pass


def read(data):
    """(S, D, records) or Refused(number, line); a record is [word, a, b, out]."""
    if not 1 <= len(data) <= 4096:
        raise Refused(1, 0)
    if not re.fullmatch(rb"[a-z0-9\t\n]*\n", data):
        raise Refused(2, 0)
    lines = data.split(b"\n")[:-1]
    head = lines[0].split(b"\t")
    if len(head) != 3 or head[0] != b"routine" or number(head[1]) is None or number(head[2]) is None:
        raise Refused(3, 1)
    s, d = number(head[1]), number(head[2])
    if not (1 <= s <= 8 and 2 <= d <= 8):
        raise Refused(4, 1)
    wires = [[b"share", k // d, k % d, False] for k in range(s * d)]
    outs = []
    for at, line in enumerate(lines[1:], 2):
        word, *fields = line.split(b"\t")
        numbers = [number(f) for f in fields]
        if word not in ARITY or len(numbers) != ARITY[word] or None in numbers:
            raise Refused(5, at)
        w, *ops = numbers
        if word == b"out":
            if len(outs) == 64:
                raise Refused(8, at)
            if w >= len(wires) or (outs and w <= outs[-1]):
                raise Refused(9, at)
            outs.append(w)
            wires[w][3] = True
            continue
        if w != len(wires) or outs:
            raise Refused(6, at)
        if any(v >= w for v in ops):
            raise Refused(7, at)
        if len(wires) == 128 or sum(x[0] == word for x in wires) == {b"rand": 64, b"pub": 16}.get(word, 999):
            raise Refused(8, at)
        wires.append([word] + (ops + [0, 0])[:2] + [False])
    return s, d, wires


def run(s, d, wires, shares, randoms, publics):
    """The values, or None where a bit is set beyond the routine's own (14)."""
    counts = [sum(x[0] == w for x in wires) for w in (b"rand", b"pub")]
    if shares >> (s * d) or randoms >> counts[0] or publics >> counts[1]:
        return None
    values, r, p = [], 0, 0
    for k, (word, a, b, _) in enumerate(wires):
        if word == b"share":
            values.append(shares >> k & 1)
        elif word == b"rand":
            values.append(randoms >> r & 1)
            r += 1
        elif word == b"pub":
            values.append(publics >> p & 1)
            p += 1
        elif word == b"xor":
            values.append(values[a] ^ values[b])
        elif word == b"and":
            values.append(values[a] & values[b])
        else:
            values.append(1 - values[a])
    return values


def shown(data):
    try:
        s, d, wires = read(data)
    except Refused as r:
        return f"read {r.args[0]} {r.args[1]} 0 0 0\n"
    n = len(wires)
    out = [f"read 0 0 {s} {d} {n}", f"write 0 {len(data)} same 0", "write short 15 0 0"]
    top = 1 << 63
    for shares, randoms, publics, room in ((0, 0, 0, n + 2), (1, 0, 0, n + 2), (2, 1, 0, n + 2), (0, 2, 1, n + 2), (0, 0, 0, n - 1), (top, 0, 0, n - 1)):
        values = run(s, d, wires, shares, randoms, publics)
        number_, values = (14, []) if values is None else (15, []) if room < n else (0, values)
        buffer = (values + [42] * (n + 1))[: n + 1]
        out.append(f"run {number_} {len(values)}: " + " ".join(map(str, buffer)))
    out.append("spoiled" + " 11 0" * 5)
    return "\n".join(out) + "\n"


if __name__ == "__main__":
    if sys.argv[1] == "stdin":
        sys.stdout.buffer.write(b"".join(case + b"\0" for case in CASES))
    else:
        sys.stdout.write("".join(shown(case) for case in CASES))
