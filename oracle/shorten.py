"""A case on which two programs differ, made as short as the difference stays."""

from cases import Reader, answers, block, head
from proved import answers_by

MOST_TRIES = 4000       # runs that it may take


def parted(case):
    """A case as its word, its numbers but for the sizes of blocks, its rows and its blocks."""
    reader = Reader(case)
    word, *numbers = reader.line()
    numbers = list(map(int, numbers))
    sizes = {"fetch": slice(0, 2), "write": slice(7, 9), "changes": slice(5, 7)}.get(word, slice(-1, None))
    rows = []
    if word in ("write", "tally"):
        rows = [reader.line() for _ in range(numbers[5] + numbers[6] if word == "write" else numbers[1])]
    blocks = [reader.block(size) for size in numbers[sizes]]
    return word, numbers, sizes, rows, blocks


def joined(word, numbers, sizes, rows, blocks):
    numbers = list(numbers)
    numbers[sizes] = [len(data) for data in blocks]
    return head(word, *numbers) + b"".join(head(*row) for row in rows) + b"".join(map(block, blocks))


def pieces(data):
    """Parts that may be dropped: runs of lines, then runs of bytes, long ones first."""
    lines = data.splitlines(keepends=True)
    for parts in (lines, [data[k:k + 1] for k in range(len(data))]):
        length = len(parts)
        while length:
            for start in range(0, len(parts), length):
                yield b"".join(parts[:start] + parts[start + length:])
            length //= 2


def shortened(case, differs):
    """The case with its blocks as short as they get while the difference stays."""
    word, numbers, sizes, rows, blocks = parted(case)
    tries, again = 0, True
    while again:
        again = False
        for k in range(len(blocks)):
            for data in pieces(blocks[k]):
                tries += 1
                if tries > MOST_TRIES:
                    return joined(word, numbers, sizes, rows, blocks)
                shorter = blocks[:k] + [data] + blocks[k + 1:]
                if differs(joined(word, numbers, sizes, rows, shorter)):
                    blocks, again = shorter, True
                    break
    return joined(word, numbers, sizes, rows, blocks)


def show(program, case):
    def differs(c):
        return answers_by(program, [c]) != answers(c).splitlines()
    if differs(case):
        case = shortened(case, differs)
    word, numbers, sizes, rows, blocks = parted(case)
    print("the library differs at: %s" % case[:case.index(b"\n")].decode())
    for row in rows:
        print("  row   %s" % " ".join(row))
    for data in blocks:
        for line in data.splitlines(keepends=True) or [b""]:
            print("  block %r" % line)
    print("second program: %s" % answers(case).strip())
    print("library:        %s" % " / ".join(answers_by(program, [case])))
