#!/usr/bin/env python3
"""oracle/console.py < SCRIPT: what the console program has to print for a script, by the model in this folder.

The format of scripts and of the output is in docs/CONSOLE.md. The library is not used.
"""
import sys

from banks import open_bank
from dongles import SecondDongle, open_dongle
from model import Refusal, digest, tag
from readers import Reader
from registers import LEAST_ANSWER, Register
from stores import LogStore, SlotStore

MOST_BYTES = 70000


class Bad(Exception):
    """A line that is no command, with the reason that its error line gives."""


def parse_number(word, most):
    if not word or not all(c in b"0123456789" for c in word):
        raise Bad("bad number")
    value = int(word)
    if value > most:
        raise Bad("number out of range")
    return value


def parse_bytes(word):
    if word == b"-":
        return bytearray()
    out = bytearray()
    for part in word.split(b"+"):
        digits, star, count = part.partition(b"*")
        if not digits or len(digits) % 2 or not all(c in b"0123456789abcdefABCDEF" for c in digits):
            raise Bad("bad bytes")
        if star and (not count or not all(c in b"0123456789" for c in count)):
            raise Bad("bad bytes")
        times = int(count) if star else 1
        if len(out) + times * (len(digits) // 2) > MOST_BYTES:
            raise Bad("too many bytes")
        out += bytes.fromhex(digits.decode()) * times
    return out


def exact(word, length):
    data = parse_bytes(word)
    if len(data) != length:
        raise Bad("wrong length")
    return bytes(data)


def show(data):
    data, parts, plain, at = bytes(data), [], "", 0
    while at < len(data):
        run = at
        while run < len(data) and data[run] == data[at]:
            run += 1
        if run - at >= 4:
            if plain:
                parts.append(plain)
            plain = ""
            parts.append(f"{data[at]:02x}*{run - at}")
        else:
            plain += data[at:run].hex()
        at = run
    if plain:
        parts.append(plain)
    return "+".join(parts) if parts else "-"


READERS = {
    "byte": lambda w: parse_number(w, 255), "wide": lambda w: parse_number(w, 4294967295), "len": lambda w: parse_number(w, MOST_BYTES),
    "bytes": parse_bytes, "identity": lambda w: exact(w, 8), "hash": lambda w: exact(w, 32),
    "place": lambda w: None if w == b"end" else parse_number(w, 4294967295),
}


def split(line, count):
    """The words of a line; with `count`, a text after that many words may be ': ' and the rest of the line."""
    words, at = [], 0
    while True:
        while at < len(line) and line[at] == 32:
            at += 1
        if at == len(line):
            return words
        if len(words) == count and line[at:at + 2] == b": ":
            return words + [line[at:]]
        end = at
        while end < len(line) and line[end] != 32:
            end += 1
        words.append(line[at:end])
        at = end


def arguments(line, shape):
    text = bool(shape) and shape[-1] == "text"
    words = split(line, len(shape) if text else None)[1:]
    if len(words) != len(shape):
        raise Bad("wrong number of words")
    out = []
    for word, form in zip(words, shape):
        if form == "text":
            out.append(bytearray(word[2:]) if word[:2] == b": " else parse_bytes(word))
        elif form in READERS:
            out.append(READERS[form](word))
        elif word.decode("latin-1") in form.split("|"):
            out.append(word.decode())
        else:
            raise Bad("unknown word")
    return out


class Console:
    def __init__(self, script, out):
        lines = script.split(b"\n")
        self.lines = lines[:-1] if lines[-1] == b"" else lines
        self.out = out

    def say(self, text):
        self.out.write(b"  " + text.encode() + b"\n")

    def next(self):
        """The next line that is no comment, echoed; None at the end of the input."""
        while self.lines:
            line = self.lines.pop(0)
            if line and line[:1] != b"#":
                self.out.write(b"> " + line + b"\n")
                return line
        return None

    def refused(self, fault):
        self.say(f"refused {fault.number} by {fault.finder} at {fault.place}")

    def commands(self, table):
        """Runs commands until `close` or the end of the input."""
        while (line := self.next()) is not None:
            words = split(line, None)
            name = words[0].decode("latin-1") if words else ""
            if name == "close" and "close" in table:
                if len(words) == 1:
                    return
                self.say("error: wrong number of words")
                continue
            try:
                if name not in table:
                    raise Bad("unknown command")
                shape, run = table[name]
                run(*arguments(line, shape(words) if callable(shape) else shape))
            except Bad as bad:
                self.say(f"error: {bad}")
            except Refusal as fault:
                self.refused(fault)

    def run(self):
        self.commands({
            "digest": (["bytes"], self.digest), "tag": (["bytes", "bytes", "bytes"], self.tag),
            "bank": (["word|tally", "bytes"], self.bank),
            "dongle": (["first|second", "word|tally", "bytes", "identity", "hash"], self.dongle),
            "store": (self.store_shape, self.store), "reader": (["identity", "hash"], self.reader), "register": (self.register_shape, self.register),
        })

    @staticmethod
    def store_shape(words):
        return ["log", "bytes"] if words[1:2] == [b"log"] else ["log|slot", "bytes", "len"]

    @staticmethod
    def register_shape(words):
        head = ["first|second", "word|tally", "bytes", "identity", "hash"]
        return head + (["log", "bytes"] if words[6:7] == [b"log"] else ["log|slot", "bytes", "len"])

    def fault_line(self, fault):
        self.say("area ok") if fault is None else self.refused(fault)

    def after(self, call, told, working, area=None):
        """A call, what it told or its refusal, and the areas lent to it afterwards."""
        try:
            told(call())
        except Refusal as fault:
            self.refused(fault)
        if area is not None:
            self.say(f"area {show(area)}")
        self.say(f"working {show(working)}")

    def signed(self, s):
        self.say(f"statement {show(s.data)}")
        self.say(f"tag {show(s.tag)}")

    def digest(self, message):
        self.say(f"digest {show(digest(message))}")

    def tag(self, key, message, working):
        self.after(lambda: tag(key, message, working), lambda t: self.say(f"tag {show(t)}"), working)

    def bank(self, kind, area):
        bank = open_bank(kind, area)
        self.say(f"limit {bank.limit()}")
        self.fault_line(bank.area_fault())

        def raise_to(counter, to):
            bank.raise_to(counter, to)
            self.say("raised")

        self.commands({"close": None, "value": (["byte"], lambda c: self.say(f"value {bank.value(c)}")), "raise": (["byte", "wide"], raise_to)})
        self.say(f"area {show(area)}")

    def dongle(self, which, kind, area, identity, key):
        dongle = open_dongle(which, open_bank(kind, area), identity, key)
        self.say(f"identity {show(identity)}")
        self.say(f"limit {dongle.limit()}")

        def recent(k):
            signed = dongle.recent(k)
            self.say("none") if signed is None else self.signed(signed)

        table = {
            "close": None, "value": (["byte"], lambda c: self.say(f"value {dongle.value(c)}")),
            "attest": (["byte", "wide", "hash", "bytes"], lambda c, v, m, w: self.after(lambda: dongle.attest(c, v, m, w), self.signed, w)),
            "status": (["byte", "hash", "bytes"], lambda c, n, w: self.after(lambda: dongle.status(c, n, w), self.signed, w)),
        }
        if isinstance(dongle, SecondDongle):
            table["recent"] = (["len"], recent)
        self.commands(table)
        self.say(f"area {show(area)}")

    def open_store(self, kind, area, rows):
        return LogStore(area) if kind == "log" else SlotStore(area, rows)

    def rows(self, store):
        if isinstance(store, SlotStore) and store.usable:
            for i, queue, old, new, length in store.rows():
                self.say(f"row {i} queue {queue} old {old} new {new} length {length}")

    def store(self, kind, area, rows=0):
        store = self.open_store(kind, area, rows)
        self.fault_line(store.area_fault())

        def put(data):
            store.put(data)
            self.say("put")

        def cover(queue, position, out):
            try:
                length = store.cover(queue, position, out)
                self.say("none" if length is None else f"record {length}")
            except Refusal as fault:
                self.refused(fault)
            self.say(f"area {show(out)}")

        def forget(queue, below):
            store.forget(queue, below)
            self.say("forgot")

        self.commands({
            "close": None, "put": (["bytes"], put), "takes": (["len"], lambda n: self.say("yes" if store.takes(n) else "no")),
            "cover": (["byte", "wide", "bytes"], cover), "forget": (["byte", "wide"], forget), "count": ([], lambda: self.say(f"count {store.count()}")),
        })
        self.say(f"area {show(area)}")
        self.rows(store)

    def accepted(self, verdict):
        kind, position, high, place, length = verdict
        self.say(f"accepted {kind} position {position} high {high} text {place} {length}")

    def reader(self, identity, key):
        reader = Reader(identity, key)

        def check(queue, position, nonce, answer, working):
            challenge = reader.draw(queue, position, nonce)
            self.after(lambda: reader.check(challenge, answer, working), self.accepted, working)

        def give_up(queue, position, nonce):
            reader.draw(queue, position, nonce)
            self.say("given up")

        self.commands({"close": None, "check": (["byte", "place", "hash", "bytes", "bytes"], check), "give-up": (["byte", "place", "hash"], give_up)})
        self.say("closed")

    def register(self, which, kind, bank_area, identity, key, form, area, rows=0):
        dongle = open_dongle(which, open_bank(kind, bank_area), identity, key)
        store = self.open_store(form, area, rows)
        register, reader = Register(dongle, store), Reader(identity, key)
        self.say(f"identity {show(identity)}")
        self.say(f"limit {dongle.limit()}")

        def length(n):
            self.say(f"answer {n}")

        def read(queue, position, nonce):
            working, out = bytearray(b"\xaa" * 64), bytearray(b"\xbb" * LEAST_ANSWER)
            if position is None:
                n = register.end(queue, nonce, working, out)
            else:
                n = register.lookup(queue, position, nonce, working, out)
            self.say(f"answer {show(out[:n])}")
            verdict = reader.check(reader.draw(queue, position, nonce), out[:n], working)
            self.accepted(verdict)
            if verdict[0] in ("found", "end"):
                self.say(f"text {show(out[verdict[3]:verdict[3] + verdict[4]])}")

        self.commands({
            "close": None,
            "append": (["byte", "bytes", "text"], lambda q, w, t: self.after(lambda: register.append(q, t, w), self.signed, w)),
            "advance": (["byte", "wide", "bytes", "text"], lambda q, n, w, t: self.after(lambda: register.advance(q, n, t, w), self.signed, w)),
            "truncate": (["byte", "wide", "bytes"], lambda q, n, w: self.after(lambda: register.truncate(q, n, w), self.signed, w)),
            "lookup": (["byte", "wide", "hash", "bytes", "bytes"], lambda q, p, x, w, a: self.after(lambda: register.lookup(q, p, x, w, a), length, w, a)),
            "end": (["byte", "hash", "bytes", "bytes"], lambda q, x, w, a: self.after(lambda: register.end(q, x, w, a), length, w, a)),
            "read": (["byte", "place", "hash"], read),
        })
        self.say(f"bank {show(bank_area)}")
        self.say(f"store {show(area)}")
        self.rows(store)


if __name__ == "__main__":
    Console(sys.stdin.buffer.read(), sys.stdout.buffer).run()
