# The scanner log against the catalogue: fixed stores, and the second program on generated logs and catalogues.

# The example: one lot's count differs, one lot's file is refused, a record is written without its zeros, one has no lot.
got ./capellanote stock examples/door.log examples/abcd.sdf examples/wxyz.sdf
is "stock: the example" 1 'supplier lot         paper counted difference records
ABCD     00417          10       8          2       1  count differs
ABCD     00418          40      40          0       1
WXYZ     417             5       5          0       0  no record
examples/abcd.sdf, record 3: ABCD 417 was never received
examples/abcd.sdf, record 4: no key: lot missing
lots: 3; paper: 55; records: 4, received: 2, never received: 1, without a key: 1' 'examples/wxyz.sdf:15:1: refused 17: '

got ./capellanote stock --json examples/door.log examples/abcd.sdf
is "stock: as JSON" 1 '{"supplier":"ABCD","lot":"00417   ","paper":10,"counted":8,"difference":2,"records":1,"file":"examples/abcd.sdf","record":1}
{"supplier":"ABCD","lot":"00418   ","paper":40,"counted":40,"difference":0,"records":1,"file":"examples/abcd.sdf","record":2}
{"supplier":"WXYZ","lot":"417     ","paper":5,"counted":5,"difference":0,"records":0,"file":null,"record":null}
{"file":"examples/abcd.sdf","record":3,"supplier":"ABCD","lot":"417","never_received":true}
{"file":"examples/abcd.sdf","record":4,"no_key":"lot missing"}
{"lots":3,"paper":55,"records":4,"received":2,"never_received":1,"no_key":1}' ''

# A store as it should be, with other names and another pad byte; and what is wrong with logs, files and words.
mkdir "$room/stock"
python3 - "$room/stock/" <<'END'
import sys

def event(kind, key, quantity):
    return kind + key + quantity.to_bytes(2, "little")

def record(*items):
    return "T\n\n\n  0  0  0  0  0  0  0  0  0  0999 V2000\nM  END\n" + "".join(">  <%s>\n%s\n\n" % item for item in items) + "$$$$\n"

def put(name, data):
    with open(sys.argv[1] + name, "wb") as file:
        file.write(data if isinstance(data, bytes) else data.encode())

good = event(b"C", b"AB\0\0" + b"7\0\0\0\0\0\0\0", 9) + event(b"R", b"AB\0\0" + b"7\0\0\0\0\0\0\0", 9)
put("good.log", good + event(b"C", b"AB\0\0" + b"7\0\0\0\0\0\0\0", 9))
put("before.log", good)
put("odd.log", good + b"X")
put("empty.log", b"")
put("good.sdf", record(("MAKER", "AB"), ("BATCH", "7")))
put("faults.sdf", record(("LOT", "1")) + record(("SUPPLIER", "ABCDE"), ("LOT", "1")) + record(("SUPPLIER", "AB"), ("LOT", "123456789"))
    + record(("SUPPLIER", "AB "), ("LOT", "1")) + record(("SUPPLIER", "AB"), ("LOT", "1 ")) + record(("SUPPLIER", "AB"), ("LOT", "1")))
put('a "name" \\ of its own.sdf', record(("SUPPLIER", "AB")))
END
s=$room/stock
got ./capellanote stock --supplier MAKER --lot=BATCH --pad 0 --json "$s/good.log" "$s/good.sdf"
is "stock: settled" 0 '{"supplier":"AB\u0000\u0000","lot":"7\u0000\u0000\u0000\u0000\u0000\u0000\u0000","paper":9,"counted":9,"difference":0,"records":1,"file":"'"$s"'/good.sdf","record":1}
{"lots":1,"paper":9,"records":1,"received":1,"never_received":0,"no_key":0}' ''
got ./capellanote stock --supplier MAKER --lot BATCH --pad 0 "$s/before.log" "$s/good.sdf"
is "stock: a count before the first receipt" 1 'supplier lot         paper counted difference records
AB\x00\x00     7\x00\x00\x00\x00\x00\x00\x00        9       9         -9       1  count differs
lots: 1; paper: 9; records: 1, received: 1, never received: 0, without a key: 0' ''
got ./capellanote stock --json "$s/empty.log" "$s/faults.sdf"
is "stock: each fault" 1 '{"file":"'"$s"'/faults.sdf","record":6,"supplier":"AB","lot":"1","never_received":true}
{"file":"'"$s"'/faults.sdf","record":1,"no_key":"supplier missing"}
{"file":"'"$s"'/faults.sdf","record":2,"no_key":"supplier too long"}
{"file":"'"$s"'/faults.sdf","record":3,"no_key":"lot too long"}
{"file":"'"$s"'/faults.sdf","record":4,"no_key":"supplier ends in the pad byte"}
{"file":"'"$s"'/faults.sdf","record":5,"no_key":"lot ends in the pad byte"}
{"lots":0,"paper":0,"records":6,"received":0,"never_received":1,"no_key":5}' ''
got ./capellanote stock --json "$s/empty.log" "$s/a \"name\" \\ of its own.sdf"
is "stock: a name is escaped" 1 '{"file":"'"$s"'/a \"name\" \\ of its own.sdf","record":1,"no_key":"lot missing"}
{"lots":0,"paper":0,"records":1,"received":0,"never_received":0,"no_key":1}' ''
got ./capellanote stock --json --pad 0 "$s/odd.log" "$s/good.sdf"
is "stock: a refused log" 1 '{"supplier":"AB\u0000\u0000","lot":"7\u0000\u0000\u0000\u0000\u0000\u0000\u0000","paper":9,"counted":9,"difference":-9,"records":0,"file":null,"record":null}
{"file":"'"$s"'/good.sdf","record":1,"no_key":"supplier missing"}
{"lots":1,"paper":9,"records":1,"received":0,"never_received":0,"no_key":1}' "$s/odd.log: event 3: refused 26: "
got ./capellanote stock "$s/empty.log" "$s/none.sdf" "$s/good.sdf"
is "stock: a file that is not there" 2 'supplier lot         paper counted difference records
'"$s"'/good.sdf, record 1: no key: supplier missing
lots: 0; paper: 0; records: 1, received: 0, never received: 0, without a key: 1' "$s/none.sdf"
got ./capellanote stock "$s/none.log" "$s/good.sdf"
is "stock: a log that is not there" 2 '' "$s/none.log"
for pad in 256 00 ab -1; do
    got ./capellanote stock --pad "$pad" "$s/empty.log" "$s/good.sdf"
    is "stock: --pad $pad" 2 '' '--pad takes'
done
got ./capellanote stock "$s/empty.log"
is "stock: no file" 2 '' 'a log and the names of files'
got ./capellanote stock --pad _ --json - "$s/good.sdf" <"$s/empty.log"
is "stock: the log from standard input" 1 '{"file":"'"$s"'/good.sdf","record":1,"no_key":"supplier missing"}
{"lots":0,"paper":0,"records":1,"received":0,"never_received":0,"no_key":1}' ''

# Generated logs, and catalogues of two or three files with texts near the keys of the log, some damaged.
python3 - "$s/" "${STOCK_CASES:-60}" <<'END'
import random, sys
sys.path.insert(0, "oracle")
import generate, logs, stock
from scanner import replay

def plain(text):
    return all(32 <= b <= 126 for b in text)

def texts(rng, keys, pad):
    """Mostly the texts of a lot of the store; else one that is nearly such, or another."""
    usable = [key for key in keys if plain(key[:4].rstrip(pad)) and plain(key[4:].rstrip(pad)) and key[:4].strip() and key[4:].strip()]
    key = rng.choice(usable) if usable and rng.random() < 0.9 else b"ABCD417     "
    supplier, lot = key[:4].rstrip(pad), key[4:].rstrip(pad)
    if rng.random() < 0.25:
        supplier, lot = rng.choice([(supplier, lot.lstrip(b"0") or b"0"), (supplier, b"0" + lot), (supplier + b" ", lot), (supplier, lot + b" "), (supplier + b"X" * 4, lot)])
    return supplier, lot

def record(rng, supplier, lot):
    draft = generate.draft_record(rng, rng.randrange(4))
    items = [(b"SUPPLIER", [supplier]), (b"LOT", [lot, b"second"]), (b"NOTE", [b"n"])]
    rng.shuffle(items)
    items = [(name, [v for v in values if v.strip()]) for name, values in items if rng.random() < 0.95]
    draft.items = items + [(rng.choice([b"LOT", b"SUPPLIER"]), [b"other"])] * (rng.random() < 0.2)
    return draft

def catalogue(rng, keys, pad):
    drafts = [record(rng, *texts(rng, keys, pad)) for _ in range(rng.choice([0, 1, 3, 8]))]
    data = generate.to_bytes(rng, generate.file_rows(rng, drafts, 1))
    return data if rng.random() < 0.85 else data[:-rng.randrange(1, 30)] if data else b"\n"

def settled_case(rng):
    """Lots that are received and counted right, and their records, shuffled."""
    keys = [b"%-4s%-8d" % (rng.choice([b"AB", b"ABCD", b"WX"]), n) for n in rng.sample(range(1, 99999999), rng.choice([1, 4, 40]))]
    events = [logs.event(b"R", key, 7) for key in keys] + [logs.event(b"C", key, 7) for key in keys if rng.random() < 0.5]
    drafts = []
    for key in rng.sample(keys, len(keys)):
        draft = generate.draft_record(rng, 1)
        draft.items = [(b"LOT", [key[4:].rstrip()]), (b"SUPPLIER", [key[:4].rstrip()])]
        drafts.append(draft)
    return b"".join(events), generate.to_bytes(rng, generate.file_rows(rng, drafts, 1))

for k in range(int(sys.argv[2])):
    rng = random.Random("stock %d" % k)
    pad = rng.choice([b" ", b" ", b"\0"])
    if k % 10 == 0:
        pad = b" "
        log, only = settled_case(rng)
        files = [("%s%d.0.sdf" % (sys.argv[1], k), only)]
    else:
        log = logs.any_log(rng)
        keys = list(replay(log).papers)[:20] or [b"ABCD417     "]
        files = [("%s%d.%d.sdf" % (sys.argv[1], k, i), catalogue(rng, keys, pad)) for i in range(rng.choice([1, 2, 3]))]
    joined = stock.join(log, files, pad)
    settled = stock.settled(joined)
    try:
        for name, data in files:
            stock.sdfile(stock.Sheet(data))
    except stock.Refusal:
        settled = False
    for name, data in [("%s%d.log" % (sys.argv[1], k), log)] + files:
        with open(name, "wb") as file:
            file.write(data)
    with open("%s%d.right" % (sys.argv[1], k), "w") as file:
        file.writelines(text + "\n" for text in stock.json_lines(joined))
    with open("%s%d.words" % (sys.argv[1], k), "w") as file:
        file.write("%d %d\n" % (pad[0], 0 if settled else 1))
END
k=0
while [ -f "$s/$k.log" ]; do
    read -r pad right <"$s/$k.words"
    ./capellanote stock --json --pad "$pad" "$s/$k.log" "$s/$k".*.sdf >"$room/out" 2>"$room/err"
    status=$?
    if [ "$status" != "$right" ]; then
        bad "stock: generated $k" "status $status, not $right: $(head -c 300 "$room/err")"
    elif ! cmp -s "$room/out" "$s/$k.right"; then
        bad "stock: generated $k" "$(diff "$room/out" "$s/$k.right" | head -n 4)"
    else
        ok
    fi
    k=$((k + 1))
done
