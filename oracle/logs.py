"""Logs of the door scanners from a seed: keys that are nearly alike, full stores, figures around limits, odd bytes."""

from scanner import KINDS, MOST_LOTS, MOST_PAPER, Replay

SUPPLIERS = [b"ABCD", b"AB  ", b"  AB", b"abcd", b"\x00" * 4, b"\xff" * 4, b"ABC0", b"0ABC"]
LOTS = [b"00417   ", b"417     ", b"   00417", b"     417", b"00000417", b"00417\x00\x00\x00",
        b"417\x00\x00\x00\x00\x00", b"41700000", b"0417    ", b"00417  \xff", b"\x00" * 8, b" " * 8,
        b"\xff" * 8, b"RICDRICD", b"\n\r\n\r\"\\\x1f\x80"]
QUANTITIES = [0, 1, 2, 10, 255, 256, 257, 511, 4660, 32767, 32768, 65280, 65534, 65535]


def event(kind, key, quantity):
    return kind + key + quantity.to_bytes(2, "little")


def some_bytes(rng, size):
    return bytes(rng.randrange(256) for _ in range(size))


def day(rng):
    return b"D" + rng.choice([b"\x00" * 4, b"RICD", b"\xff" * 4, some_bytes(rng, 4)])


class Writer:
    """A log as it grows, with the store that it makes, so that the next figure can be aimed."""

    def __init__(self, rng):
        self.rng, self.parts, self.store = rng, [], Replay()

    def add(self, kind, key, quantity):
        self.parts.append(event(kind, key, quantity))
        self.store.event(kind, key, quantity)

    def paper(self, key):
        return self.store.papers.get(key, 0)

    def near(self, *figures):
        """One of the figures or a neighbour, as far as an event can carry it; at times any."""
        rng = self.rng
        wanted = [f + d for f in figures for d in (-1, 0, 0, 1) if 0 <= f + d < 65536] or [65535]
        return rng.choice(wanted) if rng.random() < 0.7 else rng.choice(QUANTITIES)

    def one(self, keys):
        """An event of any kind: issues around the paper figure, receipts around what still fits."""
        rng, key = self.rng, self.rng.choice(keys)
        choice, paper = rng.random(), self.paper(key)
        if choice < 0.35:
            self.add(b"R", key, self.near(MOST_PAPER - paper, 65535))
        elif choice < 0.65:
            self.add(b"I", key, self.near(paper))
        elif choice < 0.9:
            self.add(b"C", key, self.near(paper))
        else:
            self.parts.append(day(rng))

    def bytes(self):
        return b"".join(self.parts)


def some_keys(rng):
    """Keys that are nearly alike: fills on either side, one bit or one byte apart, the same lot of two suppliers."""
    choice = rng.randrange(3)
    if choice == 0:
        return [s + l for s in rng.sample(SUPPLIERS, 2) for l in rng.sample(LOTS, 4)]
    first = bytes(rng.choice(b"0417 AB\x00\xff") for _ in range(12))
    if choice == 1:
        bits = rng.sample(range(96), 6)
        return [first] + [bytes(b ^ (1 << k % 8 if i == k // 8 else 0) for i, b in enumerate(first)) for k in bits]
    return [first, first[::-1], first[1:] + first[:1], first[4:] + first[:4], b"ABCD00417   ", b"ABCD417     "]


def small_log(rng):
    log, keys = Writer(rng), some_keys(rng)
    for _ in range(rng.choice([1, 2, 5, 12, 30])):
        log.one(keys)
    return log.bytes()


def high_log(rng):
    """One lot near its greatest paper figure, reached to the last bottle or passed by one."""
    log, keys = Writer(rng), some_keys(rng)[:3]
    for _ in range(MOST_PAPER // 65535):
        log.add(b"R", keys[0], 65535)
    log.add(b"R", keys[0], MOST_PAPER % 65535 + rng.choice([-1, 0, 0, 1]))
    for _ in range(rng.choice([2, 6, 12])):
        log.one(keys)
    return log.bytes()


def other_key(rng, seen):
    """A key not seen yet, mostly a neighbour of one that was."""
    while True:
        key = bytearray(rng.choice(seen) if seen and rng.random() < 0.8 else some_bytes(rng, 12))
        key[rng.randrange(12)] = rng.randrange(256)
        if bytes(key) not in seen:
            return bytes(key)


def full_log(rng):
    """As many lots as a store holds, or one fewer; then receipts, issues and counts of old and new lots."""
    log, seen = Writer(rng), []
    for _ in range(MOST_LOTS - rng.choice([0, 0, 0, 1])):
        seen.append(other_key(rng, seen))
        log.add(b"R", seen[-1], rng.choice([0, 0, 1, 5, 65535]))
        if rng.random() < 0.03:
            log.one(seen[-2:])
    for _ in range(rng.choice([1, 4, 20])):
        fresh = other_key(rng, seen)
        if rng.random() < 0.5:
            log.add(rng.choice([b"R", b"R", b"I", b"C"]), fresh, rng.choice(QUANTITIES))
        else:
            log.one([rng.choice(seen), seen[0], seen[-1]])
    return log.bytes()


def spoiled(rng, log):
    """The log cut inside a body, ended by an unknown kind, or with a byte changed anywhere."""
    choice, at = rng.randrange(4), rng.randrange(len(log) + 1)
    if choice == 0:
        return log[:at]
    odd = bytes([rng.choice([k for k in range(256) if k not in KINDS])])
    if choice == 1:
        return log + odd + rng.choice([b"", b"", log[:20], b"R" * 14])
    if choice == 2:
        return log + rng.choice([b"R", b"I", b"C"]) + some_bytes(rng, rng.randrange(14))
    return log[:at] + bytes([rng.randrange(256)]) + log[at + 1:]


def random_bytes(rng):
    size = rng.choice([1, 4, 5, 14, 15, 16, 40, 200])
    if rng.random() < 0.3:
        return some_bytes(rng, size)
    return bytes(rng.choice(b"RICD\x00\x01 0") for _ in range(size))      # kinds come often enough to go on


def any_log(rng):
    choice = rng.random()
    if choice < 0.1:
        return random_bytes(rng)
    make = full_log if choice < 0.14 else high_log if choice < 0.3 else small_log
    log = make(rng)
    return spoiled(rng, log) if rng.random() < 0.3 else log


def fixed_logs():
    """Every byte alone, a log of every kind cut at every place, and stores just full."""
    keys = [s + l for s in (b"ABCD", b"EFGH") for l in (b"00417   ", b"417     ", b"   00417")]
    yield b""
    for kind in range(256):
        yield bytes([kind])
    body = event(b"R", keys[0], 300) + event(b"I", keys[0], 44) + event(b"C", keys[0], 250) + b"D\x01\x02\x03\x04"
    for cut in range(len(body) + 1):
        yield body[:cut]
    yield b"".join(event(b"R", key, k) for k, key in enumerate(keys)) + b"".join(event(b"C", key, 9) for key in keys)
    yield event(b"C", keys[0], 7) + event(b"I", keys[0], 0) + event(b"I", keys[0], 1) + event(b"R", keys[1], 0)
    many = [b"%04d%08d" % (k // 7, k) for k in range(MOST_LOTS + 2)]
    full = b"".join(event(b"R", key, 1) + event(b"I", key, 1) for key in many[:MOST_LOTS])
    yield full
    yield full + b"".join([event(b"R", many[-1], 0), event(b"R", many[0], 65535), event(b"C", many[-1], 3),
                           event(b"I", many[-2], 0)])
