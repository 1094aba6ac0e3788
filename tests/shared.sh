# The shared library, the names and sentences of the header, and the Python module. Sourced by tests/run, after tests/library.

got library/build --link
[ "$status" = 0 ] && [ -s target/sharedlib/libcapellanote.so ] && ok || bad "the shared library" "$(tail -n 3 "$room/err")"
got examples/compile --shared examples/records.c "$room/shared"
is "the shared library: a C program" 0 "" ""
mv target/staticlib/libcapellanote.a "$room/" # the program is not to lean on it
got examples/compile --run "$room/shared" examples/sample.sdf LOT
mv "$room/libcapellanote.a" target/staticlib/
[ "$status" = 0 ] && [ "$(sed -n 2p "$room/out")" = "record 1: AB-00417, 2 atoms, 1 bonds, charge -1, LOT 00417" ] && ok || bad "the shared library: a C program runs" "status $status: $(cat "$room/out" "$room/err")"

# Each refusal of the header's list has a sentence of its own, and a name.
got examples/compile tests/sentences.c "$room/sentences-c"
is "the header: sentences" 0 "" ""
got examples/compile --run "$room/sentences-c"
listed=$(sed -n '/^   Refusals$/,/^   Tables$/s/^ *\([0-9][0-9]*\)  .*/\1/p' include/capellanote.h)
[ -n "$listed" ] && [ "$(cut -d ' ' -f 1 "$room/out")" = "$listed" ] && ok || bad "the header: sentences" "not those of the list: $(cut -d ' ' -f 1 "$room/out" | diff - <(echo "$listed") | head -n 5)"
[ "$(cut -d ' ' -f 2- "$room/out" | sort -u | wc -l)" = "$(echo "$listed" | wc -l)" ] && ok || bad "the header: sentences" "two are the same"
named=$(sed -n '/^enum { CAPELLANOTE_BAD_KIND/,/};/p' include/capellanote.h | grep -o '= [0-9]*' | cut -c 3- | sort -n)
[ "$named" = "$(echo "$listed" | sort -n)" ] && ok || bad "the header: names of refusals" "not those of the list: $(echo "$named" | diff - <(echo "$listed" | sort -n) | head -n 5)"

# The items of records stepped over, in files of the second program's making, as `read` lists them.
got examples/compile tests/items.c "$room/items"
is "items: a C program" 0 "" ""
python3 - "$room" <<'END'
import random, sys
sys.path.insert(0, "oracle")
from generate import file_rows, good_drafts, to_bytes
rng = random.Random(29)
for k in range(12):
    with open("%s/items%02d.sdf" % (sys.argv[1], k), "wb") as file:
        file.write(to_bytes(rng, file_rows(rng, good_drafts(rng, 1), 1)))
END
for file in "$room"/items??.sdf; do
    ./capellanote read "$file" | python3 -c 'import json, sys
for line in sys.stdin:
    record = json.loads(line)
    for name, values in record["items"]:
        print("%d %s=%s" % (record["record"], name, "/".join(values)))' >"$room/expected"
    got examples/compile --run "$room/items" "$file"
    is "items: $(basename "$file")" 0 "$(cat "$room/expected")" ""
done

# The Python module needs an x86-64 Python: this machine's, or the one that CAPELLANOTE_X86_PYTHON names.
python=${CAPELLANOTE_X86_PYTHON:-}
[ -n "$python" ] || [ "$(uname -m)" != x86_64 ] || python=python3
if [ -n "$python" ] && command -v "$python" >/dev/null; then
    PYTHONDONTWRITEBYTECODE=1 "$python" tests/module.py >"$room/out" 2>"$room/err"
    status=$?
    [ "$status" = 0 ] && ok || bad "the Python module" "$(tail -n 3 "$room/err")"
else
    echo "tests/shared.sh: no Python for x86-64: the module is not tried"
fi
