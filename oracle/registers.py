"""A register: eight append-only logs over a dongle and a store."""
from model import WORKING, Refusal, be, wipe
from stores import MOST_TEXT, Record, digest_rule

LEAST_ANSWER = 397


class Register:
    def __init__(self, dongle, store):
        self.dongle, self.store = dongle, store
        self.open = all(dongle.value(c) == 0 for c in range(16)) and store.count() == 0
        self.last = [bytes(32)] * 8

    def low(self, queue):
        return self.dongle.value(2 * queue)

    def high(self, queue):
        return self.dongle.value(2 * queue + 1)

    def gate(self, queue):
        if not self.open:
            raise Refusal(11, "register", 0)
        if queue > 7:
            raise Refusal(10, "register", queue)

    def add(self, queue, to, text, working):
        """`to` is None where one position is to be added."""
        wipe(working)
        self.gate(queue)
        if len(text) > MOST_TEXT:
            raise Refusal(12, "register", queue)
        counter, old, previous = 2 * queue + 1, self.high(queue), self.last[queue]
        if not self.store.takes(81 + 32 + 1 + len(text)):
            raise Refusal(9, "store", counter)
        new = old + 1 if to is None else to
        matter = digest_rule(queue, old, new, previous, text)
        signed = self.dongle.attest(counter, new, matter, working)
        self.store.put(Record.made(signed, previous, text).data)
        self.last[queue] = matter
        return signed

    def append(self, queue, text, working):
        return self.add(queue, None, text, working)

    def advance(self, queue, to, text, working):
        return self.add(queue, to, text, working)

    def truncate(self, queue, to, working):
        wipe(working)
        self.gate(queue)
        if to > self.high(queue):
            raise Refusal(13, "register", queue)
        signed = self.dongle.attest(2 * queue, to, bytes(32), working)
        self.store.forget(queue, to)
        return signed

    def room(self, working, area):
        if len(area) < LEAST_ANSWER:
            raise Refusal(15, "register", 0)
        if len(working) < WORKING:
            raise Refusal(5, "register", 0)

    @staticmethod
    def answer(area, kind, statements, record=None):
        length = len(record.text) if record else 0
        data = bytes([kind, len(statements), length]) + b"".join(s.data for s in statements) + b"".join(s.tag for s in statements)
        if record:
            data += record.previous + record.text
        area[:len(data)] = data
        return len(data)

    def lookup(self, queue, position, nonce, working, area):
        wipe(working)
        self.gate(queue)
        if position == 0:
            raise Refusal(14, "register", queue)
        self.room(working, area)
        if position < self.low(queue):
            return self.answer(area, 3, [self.dongle.status(2 * queue, nonce, working)])
        if position > self.high(queue):
            return self.answer(area, 4, [self.dongle.status(2 * queue + 1, nonce, working)])
        record = self.store.at(queue, position)
        if record.new == position:
            return self.answer(area, 1, [record.signed], record)
        return self.answer(area, 2, [record.signed])

    def end(self, queue, nonce, working, area):
        wipe(working)
        self.gate(queue)
        self.room(working, area)
        status = self.dongle.status(2 * queue + 1, nonce, working)
        if self.high(queue) == 0:
            return self.answer(area, 6, [status])
        record = self.store.at(queue, self.high(queue))
        return self.answer(area, 5, [status, record.signed], record)
