"""Counter banks: sixteen numbers in an area, as words or as tallies."""
from model import MOST_NUMBER, Refusal, be, num


class Bank:
    usable = False

    def limit(self):
        return self.most if self.usable else 0

    def number(self, counter):
        raise NotImplementedError

    def store(self, counter, to):
        raise NotImplementedError

    def value(self, counter):
        if counter > 15:
            raise Refusal(2, "bank", counter)
        return self.number(counter) if self.usable else 0

    def check_raise(self, counter, to):
        old = self.value(counter)
        if to <= old:
            raise Refusal(3, "bank", counter)
        if to > self.limit():
            raise Refusal(4, "bank", counter)

    def raise_to(self, counter, to):
        self.check_raise(counter, to)
        self.store(counter, to)

    def area_fault(self):
        return None if self.usable else Refusal(6, "bank", 0)


class WordBank(Bank):
    most = MOST_NUMBER

    def __init__(self, area):
        self.area = area
        self.usable = len(area) == 64 and all(self.number(c) <= self.most for c in range(16))

    def number(self, counter):
        return num(self.area[4 * counter:4 * counter + 4])

    def store(self, counter, to):
        self.area[4 * counter:4 * counter + 4] = be(to, 4)


class TallyBank(Bank):
    def __init__(self, area):
        self.area = area
        self.size = len(area) // 16
        self.most = 8 * self.size
        self.usable = len(area) % 16 == 0 and 1 <= self.size <= 4096

    def bits(self, counter):
        """The places of a region's bits, lowest byte first and most significant bit first."""
        for at in range(self.size * counter, self.size * (counter + 1)):
            for bit in range(7, -1, -1):
                yield at, 1 << bit

    def number(self, counter):
        return sum(1 for at, bit in self.bits(counter) if not self.area[at] & bit)

    def store(self, counter, to):
        more = to - self.number(counter)
        for at, bit in self.bits(counter):
            if more and self.area[at] & bit:
                self.area[at] &= ~bit
                more -= 1


def open_bank(kind, area):
    return {"word": WordBank, "tally": TallyBank}[kind](area)
