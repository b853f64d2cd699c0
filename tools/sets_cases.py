#!/usr/bin/env python3
"""The cases of crate `test_sets`, and what each should give, by a model of its own written from the specification.

    tools/sets_cases.py stdin  > crates/test_sets/stdin     the routines, each ended by a zero byte
    tools/sets_cases.py stdout > crates/test_sets/stdout    what the program should print
"""
import sys
from itertools import combinations

from texts_cases import EXAMPLE_A, read, text


def emitter(lines, first):
    """Appends wire lines, each the next wire; gives the wire's number."""
    count = [first]

    def emit(word, *operands):
        lines.append(" ".join([word, str(count[0])] + [str(v) for v in operands]))
        count[0] += 1
        return count[0] - 1

    return emit


def sec_mult(d):
    """SecMult (Barthe, Belaïd, Dupressoir, Fouque, Grégoire, Strub and Zucchini, "Strong non-interference and type-directed higher-order masking", 2016; gadget 7): each assignment a new wire, operands in the printed order."""
    lines = [f"routine 2 {d}"]
    emit = emitter(lines, 2 * d)
    c = [emit("and", i, d + i) for i in range(d)]
    for i in range(d):
        for j in range(i + 1, d):
            r = emit("rand")
            c[i] = emit("xor", c[i], r)
            r = emit("xor", r, emit("and", i, d + j))
            r = emit("xor", r, emit("and", j, d + i))
            c[j] = emit("xor", c[j], r)
    return lines + [f"out {w}" for w in sorted(c)]


def refresh_m(d):
    """RefreshM of the same paper, gadget 4b."""
    lines = [f"routine 1 {d}"]
    emit = emitter(lines, d)
    c = list(range(d))
    for i in range(d):
        for j in range(i + 1, d):
            r = emit("rand")
            c[i] = emit("xor", c[i], r)
            c[j] = emit("xor", c[j], r)
    return lines + [f"out {w}" for w in sorted(c)]


def inverted(lines):
    """The routine with a `not` behind each random, which every later wire takes in the random's place."""
    s, d = map(int, lines[0].split()[1:])
    out, stands = [lines[0]], {str(w): w for w in range(s * d)}
    emit = emitter(out, s * d)
    for line in lines[1:]:
        word, *numbers = line.split()
        if word == "out":
            out.append(f"out {stands[numbers[0]]}")
            continue
        w = emit(word, *(stands[v] for v in numbers[1:]))
        stands[numbers[0]] = emit("not", w) if word == "rand" else w
    return out


FIGURE_4 = ["routine 1 4", "rand 4", "xor 5 0 4", "xor 6 3 4", "rand 7", "xor 8 1 7", "xor 9 6 7", "rand 10", "xor 11 2 10", "xor 12 9 10"]

ROUTINES = [
    EXAMPLE_A,
    ["routine 1 2", "xor 2 0 1"],
    ["routine 2 2", "and 4 0 3", "and 5 1 2", "xor 6 4 5"],
    ["routine 1 2", "xor 2 0 1", "xor 3 2 0"],
    ["routine 1 2", "rand 2", "xor 3 2 2", "xor 4 0 3"],
    FIGURE_4,
    FIGURE_4 + ["out 5", "out 8", "out 11", "out 12"],
    # a step frees a lower wire; a padded wire that is probed; both operands serve; an `and` with a random; publics and nots
    ["routine 1 3", "rand 3", "xor 4 0 3", "rand 5", "xor 6 3 5"],
    ["routine 1 3", "rand 3", "xor 4 0 3", "xor 5 1 4"],
    ["routine 1 2", "rand 2", "rand 3", "xor 4 3 2", "xor 5 0 4"],
    ["routine 1 2", "rand 2", "and 3 0 2", "pub 4", "xor 5 0 4", "not 6 2", "xor 7 1 6"],
    # inverted randoms: one, one with a second consumer, two that are opposites, one that is probed, one inverted twice, a padded wire; a share and a public
    ["routine 1 2", "rand 2", "not 3 2", "xor 4 0 3"],
    ["routine 1 2", "rand 2", "not 3 2", "xor 4 2 3", "xor 5 0 4", "xor 6 1 5"],
    ["routine 1 3", "rand 3", "not 4 3", "xor 5 0 3", "xor 6 1 4"],
    ["routine 1 3", "rand 3", "not 4 3", "xor 5 0 4"],
    ["routine 1 2", "rand 2", "not 3 2", "not 4 3", "xor 5 0 4"],
    ["routine 1 3", "rand 3", "xor 4 0 3", "not 5 4", "xor 6 1 5"],
    ["routine 1 2", "not 2 0", "xor 3 1 2", "pub 4", "not 5 4", "xor 6 0 5"],
    ["routine 1 2", "out 0"],
    # eight shares: order 4 is judged, 5 is not
    ["routine 1 8", "rand 8", "xor 9 0 8"],
    # sixty-four shares: words are full
    ["routine 8 8", "xor 64 0 8", "rand 65", "xor 66 64 65"],
    sec_mult(2),
    sec_mult(3),
    sec_mult(4),
    sec_mult(5),
    inverted(EXAMPLE_A),
    inverted(sec_mult(3)),
    inverted(sec_mult(4)),
    refresh_m(3),
    refresh_m(4),
    refresh_m(5),
]


# ---- the model: live by searching until nothing changes, consumers by looking at every wire

def operands(wire):
    word, a, b, _ = wire
    return {b"xor": (a, b), b"and": (a, b), b"not": (a,)}.get(word, ())


def live_of(wires, probed, leaves):
    live, grew = set(probed), True
    while grew:
        more = {v for u in live if u not in leaves for v in operands(wires[u])}
        grew = not more <= live
        live |= more
    return live


def steps_of(wires, probed):
    leaves, steps = {w for w, x in enumerate(wires) if x[0] == b"rand"}, []
    while True:
        live = live_of(wires, probed, leaves)
        inner = [u for u in sorted(live) if u not in leaves]
        found = [
            (w, r)
            for w in inner
            if wires[w][0] == b"not" or wires[w][0] == b"xor" and wires[w][1] != wires[w][2]
            for r in sorted(operands(wires[w]))
            if r in leaves and r not in probed and all(u == w or r not in operands(wires[u]) for u in inner)
        ]
        if not found:
            return steps, live
        steps.append(found[0])
        leaves.add(found[0][0])


def needed(s, d, wires, probed):
    live = steps_of(wires, probed)[1]
    return [sum(i * d + j in live for j in range(d)) for i in range(s)], sum(1 << k for k in range(s * d) if k in live)


def reached(wires):
    """For each wire the word of the shares that it is computed from: no run needs others."""
    words = []
    for w, x in enumerate(wires):
        words.append(1 << w if x[0] == b"share" else 0)
        for v in operands(x):
            words[w] |= words[v]
    return words


def judge(s, d, wires, strong, t):
    count, below = 0, reached(wires)
    for size in range(1, t + 1):
        for probed in combinations(range(len(wires)), size):
            count += 1
            bound = sum(not wires[w][3] for w in probed) if strong else t
            word = 0
            for w in probed:
                word |= below[w]
            if all((word >> i * d & (1 << d) - 1).bit_count() <= bound for i in range(s)):
                continue
            if max(needed(s, d, wires, probed)[0]) > bound:
                return f"open {count} " + " ".join(map(str, probed))
    return f"pass {count}"


def shown(lines):
    s, d, wires = read(text(*lines))
    n = len(wires)
    out = [f"routine {s} {d} {n}"]
    for t in range(0, 6):
        for strong in (False, True):
            fits = 1 <= t <= 4 and t < d
            out.append(f"{'strong' if strong else 'plain'} {t} " + (judge(s, d, wires, strong, t) if fits else "refused 12"))
    if n <= 16:
        for size in (1, 2):
            for probed in combinations(range(n), size):
                if size < d:
                    counts, word = needed(s, d, wires, probed)
                    steps = steps_of(wires, probed)[0]
                    is_open = max(counts) > size
                    out.append(f"set {' '.join(map(str, probed))}: {word}{' open' if is_open else ''};" + "".join(f" {w} {r}" for w, r in steps))
                else:
                    out.append(f"set {' '.join(map(str, probed))}: refused 12")
        if d == 4:
            triples = [p for p in combinations(range(n), 3) if max(needed(s, d, wires, p)[0]) == 3]
            out += [f"three shares: {' '.join(map(str, p))}" for p in triples]
    return "\n".join(out) + "\n"


# ---- additions: a set is its four places and its length

def added(places, length, wire):
    held = places[:length]
    if length >= 4 or wire > 127 or wire in held or held != sorted(set(held)):
        return 13, places, length
    return 0, sorted(held + [wire]) + places[length + 1:], length + 1


# a building, wire by wire: one already there, one above 127, a fifth
BUILT = [3, 1, 3, 128, 127, 2, 5]
# additions to sets that no building gives: places behind the end, a wire twice, a length over four, a full set
GIVEN = [([5, 7, 9, 11], 1, 3), ([5, 5, 9, 11], 3, 3), ([1, 2, 4, 6], 5, 3), ([1, 2, 4, 6], 4, 3)]


def additions():
    out, places, length = [], [0] * 4, 0

    def show(wire, answer):
        number, places, length = answer
        out.append(f"add {wire}: {number}; {length}: {' '.join(map(str, places))}\n")
        return places, length

    for wire in BUILT:
        places, length = show(wire, added(places, length, wire))
    for given, size, wire in GIVEN:
        show(wire, added(given, size, wire))
    return "".join(out)


if __name__ == "__main__":
    if sys.argv[1] == "stdin":
        sys.stdout.buffer.write(b"".join(text(*r) + b"\0" for r in ROUTINES))
    else:
        sys.stdout.write("".join(shown(r) for r in ROUTINES) + additions())
