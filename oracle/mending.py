"""Mending an SDfile: the four repairs and no others, and then the file is judged.

Its case is the file, the room for the mended text and the room of the lent list, which counts repairs:

    mend ROOM LIST_ROOM SIZE                    SIZE bytes: the SDfile
    mended LENGTH REPAIRS list D room D
    refused NUMBER line LINE column COLUMN list D room D

The list holds two numbers for each repair, the line in the file as it came and what was done: 1 an empty line put before this
line, 2 this blank line dropped, 3 its line end added.
"""

from ctfile import check, record_front, SDFILE
from forms import BLANK, RECORD_END, header_name
from lines import FORBIDDEN, Refusal, Sheet

PUT, DROPPED, ENDED = 1, 2, 3


def is_end(text):
    """Four dollars and spaces, within the 80 columns of such a line."""
    return len(text) <= 80 and RECORD_END.fullmatch(text) is not None


def is_header(text):
    return header_name(text) is not None and not FORBIDDEN.search(text)


class Mender:
    """Walks over the lines of a file, all of them ended, from record to record."""

    def __init__(self, data):
        self.ended = data == b"" or data.endswith(b"\n")
        self.whole = data if self.ended else data + b"\n"
        self.sheet = Sheet(self.whole)
        self.at, self.out, self.repairs = 0, [], []

    def left(self):
        return len(self.sheet.lines) - self.at

    def text(self):
        return self.sheet.lines[self.at].text

    def keep(self, count=1):
        """The next lines as they came."""
        for line in self.sheet.lines[self.at:self.at + count]:
            self.out.append(self.whole[line.start:line.next])
        self.at += count

    def drop(self):
        self.repairs.append((self.at + 1, DROPPED))
        self.at += 1

    def put(self):
        self.repairs.append((self.at + 1, PUT))
        self.out.append(b"\n")

    def blanks_left(self):
        return all(BLANK.fullmatch(line.text) for line in self.sheet.lines[self.at:])

    def values(self):
        """Value lines up to the blank that ends the item, which is put there if it is missing. False where a line is refused."""
        while self.left():
            text = self.text()
            if is_header(text) or is_end(text):
                self.put()
                return True
            self.sheet.take(self.at, 200)
            if text.startswith(b"$$$$"):
                return False
            self.keep()
            if BLANK.fullmatch(text):
                return True
        return False

    def items(self):
        """Items up to and with the record's end. False where a line is refused."""
        while self.left():
            text = self.text()
            if BLANK.fullmatch(text):
                self.drop()
            elif is_end(text):
                self.keep()
                return True
            elif is_header(text):
                self.keep()
                if not self.values():
                    return False
            else:
                return False
        return False

    def walk(self):
        while self.left():
            if self.at and self.blanks_left():          # after the last record
                while self.left():
                    self.drop()
                return
            _, after = record_front(self.sheet, self.at)
            self.keep(after - self.at)
            if not self.items():
                return


def mended(data):
    """The text after all repairs up to the first line that is refused, and the list of repairs."""
    mender = Mender(data)
    try:
        mender.walk()
    except Refusal:
        pass                        # told by the judgement of the text
    mender.keep(mender.left())
    last = len(mender.sheet.lines)
    if not mender.ended and (last, DROPPED) not in mender.repairs:
        mender.repairs.append((last, ENDED))
    return b"".join(mender.out), mender.repairs


def mend(data, room, list_room):
    """("mended", length, how many repairs), the text and the repairs; or the refusal, with nothing written."""
    text, repairs = mended(data)
    answer = check(SDFILE, text)
    if answer[0] == "refused":
        return answer, b"", []
    for number, short in ((38, room < len(text)), (39, list_room < len(repairs))):
        if short:
            return Refusal(number).answer(), b"", []
    return ("mended", len(text), len(repairs)), text, repairs
