#!/usr/bin/env python3
"""A client and a provider by docs/FORMATS.md alone, apart from the program: the words, lengths and digests that the cases
of crates/command_cases expect were computed so. Prints those of the session that data/sessions.txt begins with.
"""
from hashlib import sha256

WORD = 2**64 - 1
POINT, THRESHOLD = 0, 1


def block(seed, filler):
    """The words of the first ChaCha block (RFC 8439, with a counter of 64 bits at 0 and stream 0) under a node's seed."""
    key = seed.to_bytes(16, "big") + bytes([filler]) * 16
    state = [0x61707865, 0x3320646E, 0x79622D32, 0x6B206574]
    state += [int.from_bytes(key[i : i + 4], "little") for i in range(0, 32, 4)] + [0] * 4
    x = state[:]

    def mix(a, b, c, d):
        for one, two, three, turn in ((a, b, d, 16), (c, d, b, 12), (a, b, d, 8), (c, d, b, 7)):
            x[one] = (x[one] + x[two]) % 2**32
            mixed = x[three] ^ x[one]
            x[three] = (mixed << turn | mixed >> (32 - turn)) % 2**32

    for _ in range(10):
        for a in range(4):
            mix(a, a + 4, a + 8, a + 12)
        for a in range(4):
            mix(a, (a + 1) % 4 + 4, (a + 2) % 4 + 8, (a + 3) % 4 + 12)
    return [(a + b) % 2**32 for a, b in zip(x, state)]


def number(words):
    return int.from_bytes(b"".join(w.to_bytes(4, "big") for w in words), "big")


def expand(seed):
    """The seeds, control bits and words of both children."""
    out = block(seed, 0)
    return (number(out[:4]), number(out[4:8])), (out[8] & 1, out[8] >> 1 & 1), (number(out[9:11]), number(out[11:13]))


def leaf(seed):
    return number(block(seed, 1)[:2])


def two_keys(kind, depth, alpha, beta, roots):
    """The keys of Zero and of One: (kind, depth, root, levels, last word)."""
    nodes, levels = [(roots[0], 0), (roots[1], 1)], []
    for place in reversed(range(depth)):
        keep = alpha >> place & 1
        lose = 1 - keep
        (s0, t0, w0), (s1, t1, w1) = (expand(seed) for seed, _ in nodes)
        seed = s0[lose] ^ s1[lose]
        bits = (t0[0] ^ t1[0] ^ (keep == 0), t0[1] ^ t1[1] ^ (keep == 1))
        sigma = nodes[0][1] - nodes[1][1]
        target = [beta if side == lose == 0 else 0 for side in (0, 1)]
        words = [sigma * (target[side] - w0[side] + w1[side]) & WORD for side in (0, 1)]
        levels.append((seed, bits, words if kind == THRESHOLD else []))
        nodes = [(s[keep] ^ control * seed, t[keep] ^ control * bits[keep]) for (_, control), s, t in zip(nodes, (s0, s1), (t0, t1))]
    last = (nodes[0][1] - nodes[1][1]) * (beta - leaf(nodes[0][0]) + leaf(nodes[1][0])) & WORD
    return [(kind, depth, root, levels, last) for root in roots]


def share(provider, key, x):
    """A provider's share at x, before it is folded modulo 2^64."""
    kind, depth, seed, levels, last = key
    control, total = provider, 0
    for (correction, bits, words), place in zip(levels, reversed(range(depth))):
        s, t, w = expand(seed)
        side = x >> place & 1
        total += w[side] + control * words[side] if kind == THRESHOLD else 0
        seed, control = s[side] ^ control * correction, t[side] ^ control * bits[side]
    total += leaf(seed) + control * last
    return -total if provider else total


def big(value, count):
    return value.to_bytes(count, "big")


def sized(text):
    return big(len(text), 2) + text


def sealed(front):
    return front + sha256(front).digest()


def key_bytes(key):
    kind, depth, root, levels, last = key
    spelled = [big(seed, 16) + bytes([bits[0] | bits[1] << 1]) + b"".join(big(w, 8) for w in words) for seed, bits, words in levels]
    return bytes([kind, depth]) + big(root, 16) + b"".join(spelled) + big(last, 8)


def session(query, shape, codes, secrets, drawn):
    """The note, both key frames and both providers' keys; secrets are (kind, depth, alpha, beta), tree by tree."""
    drawn = [high << 64 | low for high, low in zip(drawn[::2], drawn[1::2])]
    name, roots = big(drawn[0], 16), list(zip(drawn[1::2], drawn[2::2]))
    trees = [two_keys(*secret, root) for secret, root in zip(secrets, roots)]
    keys = [[tree[provider] for tree in trees] for provider in (0, 1)]
    texts = sized(query) + sized(shape)
    frames = [sealed(b"SPLK\x01\x01" + bytes([p]) + name + texts + big(len(keys[p]), 2) + b"".join(map(key_bytes, keys[p]))) for p in (0, 1)]
    digests = b"".join(sha256(frame).digest() for frame in frames)
    note = sealed(b"SPLN\x01\x01" + name + texts + bytes([len(codes)]) + b"".join(big(code, 16) for code in codes) + digests + bytes(32))
    return note, frames, keys


def summed(provider, keys, rows):
    """The words of one cell over rows of (joined key, cell): each row's cell times the shares of all keys."""
    words = [0] * len(rows[0][1])
    for x, cell in rows:
        weight = sum(share(provider, key, x) for key in keys)
        words = [word + weight * entry & WORD for word, entry in zip(words, cell)]
    return words


def by_cells(provider, keys, rows, cell):
    """The words of one cell for each key over rows of (joined key, row): a key less deep than the first one is of a higher
    level, where rows are gathered by the joined key without as many of its lowest bits; `cell` makes a cell of rows."""
    words = []
    for key in keys:
        level, gathered = keys[0][1] - key[1], {}
        for x, row in rows:
            gathered.setdefault(x >> level, []).append(row)
        words += summed(provider, [key], [(x, cell(of_x)) for x, of_x in gathered.items()] or [(0, cell([]))])
    return words


def answer(provider, name, frame, words, table):
    """The answer frame with these words; table is the canonical shape text and then the table."""
    front = b"SPLA\x01\x01" + bytes([provider]) + big(name, 16) + sha256(frame).digest() + sha256(table).digest()
    return sealed(front + big(len(words), 4) + b"".join(big(word, 8) for word in words))


def cover(low, high, width):
    """The aligned ranges (level, index) of an interval: those inside it that are of the highest level or whose parent isn't."""

    def inside(level, index):
        return low <= index << level and (index + 1 << level) - 1 <= high

    levels = [(level, range(low >> level, (high >> level) + 1)) for level in range(width)]
    return [(j, c) for j, indices in levels for c in indices if inside(j, c) and (j == width - 1 or not inside(j + 1, c // 2))]


def cover_secrets(bits, width, interval):
    """Two points for each level of an interval's cover, or of none."""
    ranges = cover(*interval, width) if interval else []
    secrets = []
    for level in range(width):
        indices = [c for j, c in ranges if j == level]
        secrets += [(POINT, bits - level, c, 1) for c in indices] + [(POINT, bits - level, 0, 0)] * (2 - len(indices))
    return secrets


def flights(low, high):
    """The files of the session about flights from SFO to JFK in a range of prices, with the words 1 to 10 drawn."""
    shape = b"table flights\nrows 5\norigin TEXT(3)\ndest TEXT(3)\nmonth UINT(4)\nprice UINT(16)\n"
    table = b"origin,dest,month,price\nSFO,JFK,3,300\nSFO,JFK,4,450\nSFO,BOS,3,200\nLAX,JFK,5,310\nSFO,JFK,5,600\n"
    query = b"SELECT COUNT(*), SUM(price), AVG(price) FROM flights WHERE origin = ? AND dest = ? AND price BETWEEN ? AND ?"
    place = {name: int.from_bytes(name, "big") for name in (b"SFO", b"JFK", b"BOS", b"LAX")}

    def joined(origin, dest, price):
        return place[origin] << 40 | place[dest] << 16 | price

    if low <= high:
        secrets = [(THRESHOLD, 64, joined(b"SFO", b"JFK", high), 1), (THRESHOLD, 64, joined(b"SFO", b"JFK", low) - 1, WORD)]
    else:
        secrets = [(THRESHOLD, 64, 0, 0)] * 2
    note, frames, keys = session(query, shape, [place[b"SFO"], place[b"JFK"], low, high], secrets, range(1, 11))
    rows = [line.split(b",") for line in table.split()[1:]]
    rows = [(joined(origin, dest, int(price)), [1, int(price), int(price)]) for origin, dest, _, price in rows]
    answers = [answer(p, 1 << 64 | 2, frames[p], summed(p, keys[p], rows), shape + table) for p in (0, 1)]
    return {"note": note, "key0": frames[0], "key1": frames[1], "answer0": answers[0], "answer1": answers[1]}


if __name__ == "__main__":
    for low, high in ((300, 500), (500, 300)):
        for name, file in flights(low, high).items():
            print(f"{low} {high} {name} {len(file)} {sha256(file).hexdigest()}")
