"""Records, and the log store and the slot store that hold them."""
from dongles import Statement
from model import Refusal, be, num, sha256

MOST_TEXT = 200
RECORD_HEAD = 81 + 32 + 1
MOST_RECORD = RECORD_HEAD + MOST_TEXT
MOST_LOG = 65536
SLOT = 320
MOST_SLOTS = 200


def digest_rule(queue, old, new, previous, text):
    return sha256(bytes([queue]) + be(old, 4) + be(new, 4) + bytes(previous) + bytes(text))


class Record:
    """A signed statement (81), the previous digest (32), the text length (1) and the text."""

    def __init__(self, data):
        self.data = bytes(data)
        self.signed = Statement(self.data[:49], self.data[49:81])
        self.previous, self.text = self.data[81:113], self.data[RECORD_HEAD:]
        self.counter, self.old, self.new = self.signed.counter, self.signed.old, self.signed.new
        self.queue = self.counter // 2

    @staticmethod
    def made(signed, previous, text):
        return Record(signed.data + signed.tag + previous + bytes([len(text)]) + bytes(text))

    @staticmethod
    def well_formed(data):
        if not RECORD_HEAD <= len(data) <= MOST_RECORD or len(data) != RECORD_HEAD + data[113]:
            return False
        record = Record(data)
        return record.counter % 2 == 1 and record.counter <= 15 and record.old < record.new

    def spans(self, position):
        return self.old < position <= self.new


class Store:
    def __init__(self, area, usable):
        self.area, self.usable, self.records = area, usable, []
        if usable:
            area[:] = bytes(len(area))

    def area_fault(self):
        return None if self.usable else Refusal(6, "store", 0)

    def takes(self, length):
        raise NotImplementedError

    def write(self):
        """Lays the records held into the area."""
        raise NotImplementedError

    def keep(self, gone):
        self.records = [r for r in self.records if not gone(r)]

    def count(self):
        return len(self.records)

    def at(self, queue, position):
        return next((r for r in self.records if r.queue == queue and r.spans(position)), None)

    def put(self, data):
        if not Record.well_formed(data):
            raise Refusal(7, "store", 0)
        record = Record(data)
        for held in self.records:
            if held.counter == record.counter and max(held.old, record.old) < min(held.new, record.new):
                raise Refusal(8, "store", record.counter)
        if not self.takes(len(data)):
            raise Refusal(9, "store", record.counter)
        self.records.append(record)
        self.write()

    def cover(self, queue, position, area):
        if len(area) < MOST_RECORD:
            raise Refusal(15, "store", 0)
        record = self.at(queue, position)
        if record is None:
            return None
        area[:len(record.data)] = record.data
        return len(record.data)

    def forget(self, queue, below):
        self.keep(lambda r: r.queue == queue and r.new < below)
        if self.usable:
            self.write()


class LogStore(Store):
    def __init__(self, area):
        super().__init__(area, len(area) <= MOST_LOG)

    def used(self):
        return sum(2 + len(r.data) for r in self.records)

    def takes(self, length):
        return self.usable and self.used() + 2 + length <= len(self.area)

    def write(self):
        laid = b"".join(be(len(r.data), 2) + r.data for r in self.records)
        self.area[:] = laid + bytes(len(self.area) - len(laid))


class SlotStore(Store):
    def __init__(self, area, rows):
        slots = len(area) // SLOT
        super().__init__(area, len(area) % SLOT == 0 and slots <= MOST_SLOTS and slots == rows)
        self.slots = slots

    def takes(self, length):
        return self.usable and len(self.records) < self.slots

    def write(self):
        laid = b"".join(r.data + bytes(SLOT - len(r.data)) for r in self.records)
        self.area[:] = laid + bytes(len(self.area) - len(laid))

    def keep(self, gone):
        at = 0
        while at < len(self.records):
            if gone(self.records[at]):
                last = self.records.pop()
                if at < len(self.records):
                    self.records[at] = last
            else:
                at += 1

    def rows(self):
        return [(i, r.queue, r.old, r.new, len(r.data)) for i, r in enumerate(self.records)]
