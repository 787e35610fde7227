"""The rules of the library, written again in Python over hashlib and hmac, with no line of the library's own.

Every class does what docs/RULES.md says of the part of its name; docs/FORMATS.md has the layouts and
docs/REFUSALS.md the numbers. It is slow and plain on purpose.
"""
import hashlib
import hmac

MOST_MESSAGE = 65536
WORKING = 64
MOST_NUMBER = 4_000_000_000


class Refusal(Exception):
    """What a refused call hands back: its number, who found it and the place."""

    def __init__(self, number, finder, place):
        super().__init__(f"refused {number} by {finder} at {place}")
        self.number, self.finder, self.place = number, finder, place


def be(number, width):
    return number.to_bytes(width, "big")


def num(data):
    return int.from_bytes(data, "big")


def wipe(working):
    if len(working) >= WORKING:
        working[:WORKING] = bytes(WORKING)


def sha256(data):
    return hashlib.sha256(bytes(data)).digest()


def mac(key, data):
    return hmac.new(bytes(key), bytes(data), hashlib.sha256).digest()


def digest(message):
    if len(message) > MOST_MESSAGE:
        raise Refusal(1, "digest", 0)
    return sha256(message)


def tag(key, message, working):
    wipe(working)
    if len(message) > MOST_MESSAGE:
        raise Refusal(1, "digest", 0)
    if len(key) > MOST_MESSAGE:
        raise Refusal(1, "digest", 1)
    if len(working) < WORKING:
        raise Refusal(5, "digest", 0)
    return mac(key, message)
