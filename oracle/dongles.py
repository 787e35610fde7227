"""Statements, and the two dongles that sign them."""
from model import WORKING, Refusal, be, mac, num, wipe

MOST_RECENT = 8


class Statement:
    """49 bytes: identity 8, counter 1, old 4, new 4, matter 32; and, signed, its tag of 32."""

    def __init__(self, data, tag):
        self.data, self.tag = bytes(data), bytes(tag)
        self.identity, self.counter = self.data[:8], self.data[8]
        self.old, self.new, self.matter = num(self.data[9:13]), num(self.data[13:17]), self.data[17:]

    def advance(self):
        return self.old < self.new

    def status(self):
        return self.old == self.new


class FirstDongle:
    def __init__(self, bank, identity, key):
        self.bank, self.identity, self.key = bank, identity, key

    def limit(self):
        return self.bank.limit()

    def value(self, counter):
        return self.bank.value(counter)

    def signed(self, counter, old, new, matter):
        data = self.identity + bytes([counter]) + be(old, 4) + be(new, 4) + matter
        return Statement(data, mac(self.key, data))

    def attest(self, counter, to, matter, working):
        wipe(working)
        if len(working) < WORKING:
            raise Refusal(5, "dongle", 0)
        self.bank.check_raise(counter, to)
        old = self.bank.value(counter)
        self.bank.raise_to(counter, to)
        return self.signed(counter, old, to, matter)

    def status(self, counter, nonce, working):
        wipe(working)
        if len(working) < WORKING:
            raise Refusal(5, "dongle", 0)
        number = self.bank.value(counter)
        return self.signed(counter, number, number, nonce)


class SecondDongle:
    """Any dongle, and the latest statements that attest issued through it."""

    def __init__(self, inner):
        self.inner, self.issued = inner, []

    @property
    def identity(self):
        return self.inner.identity

    @property
    def key(self):
        return self.inner.key

    def limit(self):
        return self.inner.limit()

    def value(self, counter):
        return self.inner.value(counter)

    def attest(self, counter, to, matter, working):
        signed = self.inner.attest(counter, to, matter, working)
        self.issued = [signed] + self.issued[:MOST_RECENT - 1]
        return signed

    def status(self, counter, nonce, working):
        return self.inner.status(counter, nonce, working)

    def recent(self, k):
        return self.issued[k] if k < len(self.issued) else None


def open_dongle(which, bank, identity, key):
    first = FirstDongle(bank, identity, key)
    return first if which == "first" else SecondDongle(first)
