"""Tests of log and catalogue joined: by hand, and that each record is told of once."""

import random

from expect import expect
from formulas import record
from logs import any_log, event, some_keys
from scanner import replay
from stock import join, json_lines, settled, totals

KEY, SHORT, OTHER = b"ABCD00417   ", b"ABCD417     ", b"EF  417     "


def bottle(supplier, lot):
    return record((), [(name, [text]) for name, text in ((b"SUPPLIER", supplier), (b"LOT", lot)) if text is not None])


def told(log, *files, pad=b" "):
    return list(json_lines(join(log, [("%c.sdf" % (97 + k), data) for k, data in enumerate(files)], pad)))


def joins_by_hand():
    log = event(b"R", KEY, 12) + event(b"I", KEY, 2) + event(b"C", KEY, 8) + event(b"R", OTHER, 5)
    expect("a lot with records, one without", told(log, bottle(b"ABCD", b"00417") * 2, bottle(b"ABCD", b"00417")), [
        '{"supplier":"ABCD","lot":"00417   ","paper":10,"counted":8,"difference":2,"records":3,"file":"a.sdf","record":1}',
        '{"supplier":"EF  ","lot":"417     ","paper":5,"counted":null,"difference":null,"records":0,"file":null,"record":null}',
        '{"lots":2,"paper":15,"records":3,"received":3,"never_received":0,"no_key":0}'])
    expect("417 and 00417 never meet", told(event(b"R", KEY, 1), bottle(b"ABCD", b"417")), [
        '{"supplier":"ABCD","lot":"00417   ","paper":1,"counted":null,"difference":null,"records":0,"file":null,"record":null}',
        '{"file":"a.sdf","record":1,"supplier":"ABCD","lot":"417","never_received":true}',
        '{"lots":1,"paper":1,"records":1,"received":0,"never_received":1,"no_key":0}'])
    for supplier, lot, reason in ((None, b"1", "supplier missing"), (b"AB", None, "lot missing"), (None, None, "supplier missing"),
                                  (b"ABCDE", b"1", "supplier too long"), (b"AB", b"123456789", "lot too long"),
                                  (b"AB ", b"1", "supplier ends in the pad byte"),
                                  (b"AB", b"1 ", "lot ends in the pad byte"), (b"ABCDE", None, "supplier too long"),
                                  (b"AB  ", b"1", "supplier ends in the pad byte")):
        expect(reason, told(b"", bottle(supplier, lot)), ['{"file":"a.sdf","record":1,"no_key":"%s"}' % reason,
                                                          '{"lots":0,"paper":0,"records":1,"received":0,"never_received":0,"no_key":1}'])
    expect("a space in front stays", told(event(b"R", b" AB 1       ", 0), bottle(b" AB", b"1"))[-1],
           '{"lots":1,"paper":0,"records":1,"received":1,"never_received":0,"no_key":0}')
    expect("another pad byte", told(event(b"R", b"AB00100     ", 0), bottle(b"AB", b"100     "), pad=b"0")[-1],
           '{"lots":1,"paper":0,"records":1,"received":1,"never_received":0,"no_key":0}')
    expect("only the first items", told(event(b"R", KEY, 0), record((),
        [(b"LOT", [b"00417", b"x"]), (b"SUPPLIER", [b"ABCD"]), (b"LOT", [b"9"])]))[-1],
           '{"lots":1,"paper":0,"records":1,"received":1,"never_received":0,"no_key":0}')
    expect("an item without values", told(b"", record((), [(b"SUPPLIER", []), (b"SUPPLIER", [b"AB"]), (b"LOT", [b"1"])]))[0],
           '{"file":"a.sdf","record":1,"no_key":"supplier missing"}')
    expect("odd bytes of a key", told(event(b"R", b'A"\\\x00' + b"\x7f" * 8, 0))[0].startswith(
        '{"supplier":"A\\"\\\\\\u0000","lot":"\\u007f'), True)
    expect("a refused file has no records", told(event(b"R", KEY, 0), bottle(b"ABCD", b"00417")[:-1])[-1],
           '{"lots":1,"paper":0,"records":0,"received":0,"never_received":0,"no_key":0}')


def settled_stocks():
    good = [("a", bottle(b"ABCD", b"00417"))]
    for name, log, files, want in (
            ("settled", event(b"R", KEY, 3) + event(b"C", KEY, 3), good, True), ("no count", event(b"R", KEY, 3), good, True),
            ("the last count differs", event(b"R", KEY, 3) + event(b"C", KEY, 3) + event(b"C", KEY, 2), good, False),
            ("an earlier count differs", event(b"R", KEY, 3) + event(b"C", KEY, 2) + event(b"C", KEY, 3), good, True),
            ("no record", event(b"R", KEY, 3), [], False), ("no lot", b"", good, False),
            ("no key", b"", [("a", bottle(None, b"1"))], False),
            ("a log that stops", event(b"R", KEY, 3) + b"x", good, False), ("nothing at all", b"", [], True)):
        expect(name, settled(join(log, files)), want)


def every_record_once():
    """The three numbers make the files' records, and the paper figures the log's sum; keys and texts are one to one."""
    rng = random.Random(95)
    for k in range(120):
        keys = some_keys(rng)
        log = any_log(rng) if k % 4 == 0 else b"".join(event(b"R", key, rng.randrange(9)) for key in keys if rng.random() < 0.7)
        texts = [(key[:4].rstrip(b" "), key[4:].rstrip(b" ")) for key in keys if set(key) <= set(range(32, 127))]
        texts = [(s, l) for s, l in texts if s.strip(b" ") and l.strip(b" ")]
        chosen = [rng.choice(texts + [(b"ZZ", b"9"), (None, b"1"), (b"AB", b"1 ")]) for _ in range(rng.randrange(8))]
        cut = rng.randrange(len(chosen) + 1)
        files = [("a", b"".join(bottle(*pair) for pair in chosen[:cut])), ("b", b"".join(bottle(*pair) for pair in chosen[cut:]))]
        stock = join(log, files)
        lots, paper, records, received, never, keyless = totals(stock)
        store = replay(log)
        expect("records %d" % k, (records, received + never + keyless), (len(chosen), len(chosen)))
        expect("paper %d" % k, (lots, paper), (len(store.papers), store.received - store.issued))
        seen = [(place.file, place.record) for found in [*stock.lots.values(), stock.never, stock.keyless] for place in found]
        expect("once %d" % k, sorted(seen), sorted([("a", n + 1) for n in range(cut)] + [("b", n + 1) for n in range(len(chosen) - cut)]))
        for key, found in stock.lots.items():
            expect("one text a key %d" % k, len({(place.supplier, place.lot) for place in found}) <= 1, True)


ALL = [joins_by_hand, settled_stocks, every_record_once]
