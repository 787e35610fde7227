"""A reader: what he draws, and what he makes of an answer's bytes."""
from dongles import Statement
from model import WORKING, Refusal, mac, wipe
from stores import MOST_TEXT, digest_rule

KINDS = {1: "found", 2: "skipped", 3: "forgotten", 4: "not-yet", 5: "end", 6: "end-of-empty"}
STATEMENTS = {1: 1, 2: 1, 3: 1, 4: 1, 5: 2, 6: 1}


class Reader:
    def __init__(self, identity, key):
        self.identity, self.key = identity, key

    def draw(self, queue, position, nonce):
        if queue > 7:
            raise Refusal(10, "reader", queue)
        if position == 0:
            raise Refusal(14, "reader", queue)
        return queue, position, nonce

    def check(self, challenge, answer, working):
        """The position is None where the end was asked for."""
        wipe(working)
        queue, position, nonce = challenge
        if len(working) < WORKING:
            raise Refusal(5, "reader", 0)
        if len(answer) < 3:
            raise Refusal(16, "reader", 0)
        kind, k, length = answer[:3]
        texts = kind in (1, 5)
        if len(answer) != 3 + 81 * k + (32 + length if texts else 0):
            raise Refusal(16, "reader", 0)
        if kind not in ((5, 6) if position is None else (1, 2, 3, 4)) or k != STATEMENTS[kind]:
            raise Refusal(17, "reader", 0)
        if length > (MOST_TEXT if texts else 0):
            raise Refusal(17, "reader", 0)
        parts = [answer[3 + 49 * i:52 + 49 * i] for i in range(k)]
        tags = [answer[3 + 49 * k + 32 * i:35 + 49 * k + 32 * i] for i in range(k)]
        statements = [Statement(p, t) for p, t in zip(parts, tags)]
        rest = 3 + 81 * k
        previous, text = answer[rest:rest + 32], answer[rest + 32:]

        def each(number, right):
            for i, s in enumerate(statements):
                if not right(i, s):
                    raise Refusal(number, "reader", i)

        def states(i):
            return kind >= 3 and i == 0

        v = statements[0].new
        each(18, lambda i, s: mac(self.key, s.data) == s.tag)
        each(19, lambda i, s: s.identity == self.identity and s.counter == 2 * queue + (kind != 3))
        each(20, lambda i, s: not states(i) or s.matter == nonce)

        def numbers(i, s):
            if states(i):
                rules = {3: lambda: s.new > position, 4: lambda: s.new < position, 5: lambda: s.new >= 1, 6: lambda: s.new == 0}
                return s.status() and rules[kind]()
            rules = {1: lambda: s.new == position, 2: lambda: s.old < position < s.new, 5: lambda: s.new == v}
            return s.advance() and rules[kind]()

        each(21, numbers)
        each(22, lambda i, s: states(i) or not texts or s.matter == digest_rule(queue, s.old, s.new, previous, text))
        place = rest + 32 if texts else 0
        told = position if kind <= 4 else v
        return KINDS[kind], told, v if kind >= 4 else 0, place, length if texts else 0
