"""What the sub-commands of `records` have to write of a file: its readings, one item of each record, its canonical text.

    python3 printed.py read KIND FILE...     KIND is molfile or sdfile
    python3 printed.py fetch NAME FILE...
    python3 printed.py canon FILE...

Nothing is written of a file that is refused or missing.
"""

import sys

from ctfile import molfile, sdfile
from forms import SYMBOLS
from lines import Refusal, Sheet
from writer import catalogue_text


def string(text):
    return '"' + text.decode().replace("\\", "\\\\").replace('"', '\\"') + '"'


def listed(things):
    return "[" + ",".join(things) + "]"


def atom(numbers):
    symbol = string(SYMBOLS[numbers[3] - 1].encode())
    return listed([symbol if k == 3 else str(number) for k, number in enumerate(numbers)])


def reading(record, number, line):
    return ('{"record":%d,"line":%d,"bytes":%d,"header":%s,"chiral":%d,"atoms":%s,"bonds":%s,"items":%s}'
            % (number, line, record.length, listed(string(h.text) for h in record.header), record.chiral,
               listed(map(atom, record.atoms)), listed(listed(map(str, b)) for b in record.bonds),
               listed(listed([string(i.name), listed(string(v.text) for v in i.values)])
                      for i in record.items)))


def item(record, number, line, name):
    named = [i for i in record.items if i.name == name]
    value = listed(string(v.text) for v in named[0].values) if named else "null"
    return '{"record":%d,"line":%d,"value":%s}' % (number, line, value)


def each(records, shown):
    line = 1
    for number, record in enumerate(records, 1):
        yield shown(record, number, line) + "\n"
        line += record.lines_used


def printed(verb, word, data):
    sheet = Sheet(data)
    if verb == "read":
        return "".join(each([molfile(sheet)] if word == "molfile" else sdfile(sheet), reading)).encode()
    if verb == "fetch":
        name = word.encode()
        return "".join(each(sdfile(sheet), lambda *where: item(*where, name))).encode()
    return catalogue_text(data)


def main(verb, *words):
    word, files = ("", words) if verb == "canon" else (words[0], words[1:])
    for name in files:
        try:
            with open(name, "rb") as file:
                sys.stdout.buffer.write(printed(verb, word, file.read()))
        except (OSError, Refusal):
            pass


if __name__ == "__main__":
    main(*sys.argv[1:])
