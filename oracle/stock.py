"""The scanner log against the catalogue, lot by lot.

`json_lines` gives the lines of `capellanote stock --json`, which tests/stock.sh holds against the command's.

The key of a record is the first value line of its first SUPPLIER item and of its first LOT item, filled with the pad byte on the
right to four and eight bytes; nothing is trimmed. A text that is missing, too long, or ends in the pad byte has no key: then two
different texts never have one key. Read here as follows, since nothing says so: where both texts are wrong the supplier is named;
`file` and `record` of a lot are those of its first record; its difference is the one its last count reported.
"""

from typing import NamedTuple

from ctfile import sdfile
from lines import Refusal, Sheet
from scanner import replay

SUPPLIER, LOT = (b"SUPPLIER", 4, "supplier"), (b"LOT", 8, "lot")
PAD = b" "


class Place(NamedTuple):
    """A record of the catalogue: its file, its number there, its key or the reason why it has none."""

    file: str
    record: int
    supplier: object
    lot: object
    key: object
    no_key: object


class Stock(NamedTuple):
    lots: dict              # key to the places of its records, in order of the first receipt
    never: list             # places whose key is no lot
    keyless: list           # places without a key
    store: object           # the replay of the log


def first_line(record, name):
    values = next((item.values for item in record.items if item.name == name), [])
    return values[0].text if values else None


def fault(text, size, word, pad):
    """Why a text makes no key, or None."""
    if text is None:
        return word + " missing"
    if len(text) > size:
        return word + " too long"
    return word + " ends in the pad byte" if text.endswith(pad) else None


def key_of(record, pad=PAD, supplier=SUPPLIER[0], lot=LOT[0]):
    """Both texts, the key, and the reason where there is none."""
    texts = first_line(record, supplier), first_line(record, lot)
    sizes = SUPPLIER[1:], LOT[1:]
    faults = [fault(text, *size, pad) for text, size in zip(texts, sizes)]
    reason = faults[0] or faults[1]
    if reason:
        return (*texts, None, reason)
    return (*texts, texts[0].ljust(4, pad) + texts[1].ljust(8, pad), None)


def places(files, pad=PAD):
    """Every record of the files; files are pairs of a name and bytes, and a refused one has none."""
    for name, data in files:
        try:
            records = sdfile(Sheet(data))
        except Refusal:
            continue
        for number, record in enumerate(records, 1):
            yield Place(name, number, *key_of(record, pad))


def join(log, files, pad=PAD):
    store = replay(log)
    stock = Stock({key: [] for key in store.papers}, [], [], store)
    for place in places(files, pad):
        if place.key is None:
            stock.keyless.append(place)
        else:
            stock.lots.get(place.key, stock.never).append(place)
    return stock


def last_counts(store):
    """Shelf figure and difference of each key's last count."""
    return {note.key: (note.shelf, note.paper - note.shelf) for note in store.counts()}


def quoted(text):
    """Bytes as a JSON string; those that no line of a file can hold by their number."""
    shown = "".join(chr(b) if 32 <= b <= 126 and b not in b'"\\' else "\\u%04x" % b if b not in b'"\\' else "\\" + chr(b) for b in text)
    return '"' + shown + '"'


def lot_line(key, paper, count, found):
    counted, difference = count or ("null", "null")
    file, record = (quoted(found[0].file.encode()), found[0].record) if found else ("null", "null")
    return '{"supplier":%s,"lot":%s,"paper":%d,"counted":%s,"difference":%s,"records":%d,"file":%s,"record":%s}' % (
        quoted(key[:4]), quoted(key[4:]), paper, counted, difference, len(found), file, record)


def totals(stock):
    received = sum(map(len, stock.lots.values()))
    return (len(stock.lots), sum(stock.store.papers.values()), received + len(stock.never) + len(stock.keyless), received,
            len(stock.never), len(stock.keyless))


def json_lines(stock):
    counts = last_counts(stock.store)
    for key, found in stock.lots.items():
        yield lot_line(key, stock.store.papers[key], counts.get(key), found)
    for place in stock.never:
        yield '{"file":%s,"record":%d,"supplier":%s,"lot":%s,"never_received":true}' % (
            quoted(place.file.encode()), place.record, quoted(place.supplier), quoted(place.lot))
    for place in stock.keyless:
        yield '{"file":%s,"record":%d,"no_key":"%s"}' % (quoted(place.file.encode()), place.record, place.no_key)
    yield '{"lots":%d,"paper":%d,"records":%d,"received":%d,"never_received":%d,"no_key":%d}' % totals(stock)


def settled(stock):
    """Every lot has a record, every record its lot, and no last count differs."""
    counts = last_counts(stock.store)
    return (all(stock.lots.values()) and not stock.never and not stock.keyless and stock.store.refused is None
            and not any(counts[key][1] for key in counts if key in stock.lots))
