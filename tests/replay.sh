# The replay of a scanner log: each kind of event, each refusal, keys as bytes, logs over several buffers, logs that cannot be read.

# Logs, and what is to be written of them by a replay of a few lines.
mkdir "$room/logs"
python3 - "$room/logs/" <<'END'
import json, random, sys

def event(kind, key, quantity):
    return kind + key + quantity.to_bytes(2, "little")

def text(part):
    return "".join(chr(b) if 32 <= b <= 126 and b not in b'"\\' else "\\u%04x" % b for b in part)

def named(key):
    return '"supplier":"%s","lot":"%s"' % (text(key[:4]), text(key[4:]))

def replayed(log):
    lines, lots, at, number, received, issued, stop = [], {}, 0, 0, 0, 0, None
    while at < len(log):
        kind = chr(log[at])
        size = {"R": 14, "I": 14, "C": 14, "D": 4}.get(kind)
        if size is None or at + 1 + size > len(log):
            stop = 26 if size is None else 27
            break
        number += 1
        body = log[at + 1:at + 1 + size]
        at += 1 + size
        key, quantity = body[:12], int.from_bytes(body[12:], "little")
        paper = lots.get(key, 0)
        skipped = 0
        if kind == "C":
            lines.append('{"event":%d,%s,"paper":%d,"shelf":%d,"difference":%d}' % (number, named(key), paper, quantity, paper - quantity))
        elif kind == "I" and quantity > paper:
            skipped = 28
        elif kind == "I":
            issued += quantity
            if key in lots:
                lots[key] = paper - quantity
        elif kind == "R" and paper + quantity > 1000000:
            skipped = 29
        elif kind == "R" and key not in lots and len(lots) == 512:
            skipped = 30
        elif kind == "R":
            received += quantity
            lots[key] = paper + quantity
        if skipped:
            lines.append('{"event":%d,"refused":%d,%s}' % (number, skipped, named(key)))
    for key, paper in lots.items():
        lines.append('{%s,"paper":%d}' % (named(key), paper))
    lines.append('{"events":%d,"lots":%d,"received":%d,"issued":%d,"paper":%d}' % (number, len(lots), received, issued, sum(lots.values())))
    return "".join(line + "\n" for line in lines), stop, number + 1

def put(name, log):
    written, stop, number = replayed(log)
    for line in written.splitlines():
        json.loads(line)
    for ending, data in ((".log", log), (".replayed", written.encode()), (".stop", b"" if stop is None else b"%d %d\n" % (stop, number))):
        with open(sys.argv[1] + name + ending, "wb") as file:
            file.write(data)

def some(count, keys, most):
    log = []
    for k in range(count):
        kind = rng.choice([b"R", b"R", b"R", b"R", b"I", b"I", b"I", b"C", b"C", b"D"])
        log.append(b"D" + k.to_bytes(4, "little") if kind == b"D" else event(kind, rng.choice(keys), rng.randrange(most)))
    return b"".join(log)

rng = random.Random(6)
put("mixed", some(20000, [rng.randbytes(12) for k in range(40)], 200))
put("above", some(3000, [rng.randbytes(12) for k in range(3)], 65536))
lots = [b"ABCD%08d" % k for k in range(600)]
put("many", b"".join(event(b"R", key, 1) for key in lots) + some(5000, lots, 65536))
# Keys that differ in one byte only, each of the twelve.
base = b"ABCD00000417"
put("near", some(3000, [base] + [base[:i] + bytes([base[i] ^ 1]) + base[i + 1:] for i in range(12)], 200))
# Logs around the buffer's size, cut at each place of an event, and events that the buffer cuts.
put("full", event(b"R", lots[0], 1) * 4369 + b"D")
put("fuller", b"D0000" * 5 + event(b"C", lots[1], 3) * 30000)
for k in range(15):
    put("cut%02d" % k, b"D1234" * 13107 + event(b"R", lots[0], 7)[:k])
put("unknown", b"D1234" * 20000 + b"x")
END
for log in "$room"/logs/*.log; do
    name=${log%.log}
    got ./capellanote replay "$log"
    if [ -s "$name.stop" ]; then
        read -r number event <"$name.stop"
        is "replay $(basename "$log")" 1 "$(cat "$name.replayed")" "$log: event $event: refused $number: "
    else
        is "replay $(basename "$log")" 0 "$(cat "$name.replayed")" ""
    fi
    cmp -s "$room/out" "$name.replayed" && ok || bad "replay $(basename "$log")" "other bytes than the replay of a few lines"
done

# By hand: each rule of the log in a few events.
log() { # BYTES
    # shellcheck disable=SC2059
    printf "$1" >"$room/hand"
    got ./capellanote replay "$room/hand"
}
lot417='{"supplier":"ABCD","lot":"00417   ","paper":'
log ''
is "replay: no events" 0 '{"events":0,"lots":0,"received":0,"issued":0,"paper":0}' ""
log 'RABCD00417   \012\000D\001\002\003\004CABCD00417   \010\000IABCD00417   \013\000CABCD417     \001\000IABCD417     \000\000'
is "replay: the paper figure stays, and 417 is not 00417" 0 '{"event":3,"supplier":"ABCD","lot":"00417   ","paper":10,"shelf":8,"difference":2}
{"event":4,"refused":28,"supplier":"ABCD","lot":"00417   "}
{"event":5,"supplier":"ABCD","lot":"417     ","paper":0,"shelf":1,"difference":-1}
'"$lot417"'10}
{"events":6,"lots":1,"received":10,"issued":0,"paper":10}' ""
log 'RABCD00417   \000\000IABCD00417   \000\000'
is "replay: a receipt of 0 makes an entry, and a lot at 0 keeps it" 0 "$lot417"'0}
{"events":2,"lots":1,"received":0,"issued":0,"paper":0}' ""
log 'RABCD00417   \005\000X'
is "replay: 26 at the last byte" 1 "$lot417"'5}
{"events":1,"lots":1,"received":5,"issued":0,"paper":5}' "hand: event 2: refused 26: an unknown kind of event"
log 'RABCD00417   \005\000D\001\002\003'
is "replay: 27" 1 "$lot417"'5}
{"events":1,"lots":1,"received":5,"issued":0,"paper":5}' "hand: event 2: refused 27: the log ends inside this event"
log 'R\042\134\000\377tab\011del\177\001\000'
is "replay: bytes that a string cannot hold" 0 '{"supplier":"\u0022\u005c\u0000\u00ff","lot":"tab\u0009del\u007f","paper":1}
{"events":1,"lots":1,"received":1,"issued":0,"paper":1}' ""

# Standard input, and what cannot be read or written.
./capellanote replay - <"$room/logs/mixed.log" >"$room/out" 2>"$room/err"
status=$?
is "replay -" 0 "$(cat "$room/logs/mixed.replayed")" ""
(cat "$room/logs/mixed.log" && printf X) | ./capellanote replay - >"$room/out" 2>"$room/err"
status=$?
is "replay -, from a pipe" 1 "$(cat "$room/logs/mixed.replayed")" "-: event 20001: refused 26: "
got ./capellanote replay "$room/none.log"
is "replay: missing" 2 "" "none.log: No such file or directory"
got ./capellanote replay "$room"
is "replay: directory" 2 "" "Is a directory"
got ./capellanote replay
is "replay without a log" 2 "" "replay takes one log"
got ./capellanote replay a b
is "replay of two logs" 2 "" "replay takes one log"
./capellanote replay "$room/logs/mixed.log" >/dev/full 2>"$room/err"
status=$?
: >"$room/out"
is "replay: standard output is full" 2 "" "standard output: No space left on device"
