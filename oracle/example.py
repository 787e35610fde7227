#!/usr/bin/env python3
"""oracle/example.py: writes the console's example script and, by the model, what it has to print.

Most of the script stands in oracle/example/*.txt as it is; the records and answers of stores and readers are made here.
"""
import io
import os

from console import Console, show
from dongles import FirstDongle
from banks import WordBank
from model import be, mac
from stores import Record, digest_rule

HERE = os.path.dirname(os.path.abspath(__file__))
IDENTITY, KEY, NONCE = bytes(range(1, 9)), b"\x0b" * 32, b"\xc1" * 32
OTHER = b"\xc2" * 32


def dongle():
    return FirstDongle(WordBank(bytearray(64)), IDENTITY, KEY)


def statement(counter, old, new, matter, identity=IDENTITY, key=KEY):
    data = identity + bytes([counter]) + be(old, 4) + be(new, 4) + matter
    return data, mac(key, data)


def record(queue, old, new, text, counter=None, length=None, previous=bytes(32)):
    matter = digest_rule(queue, old, new, previous, text)
    data, tag = statement(2 * queue + 1 if counter is None else counter, old, new, matter)
    return data + tag + previous + bytes([len(text) if length is None else length]) + text


def stores():
    """Both stores: what is put, found, refused and forgotten, and the bytes that are left."""
    one, two, three = record(0, 0, 1, b"first"), record(0, 1, 5, b"second of two"), record(1, 0, 3, b"")
    longest = record(7, 6, 4294967295, b"t" * 200)
    lines = [
        "# Records go into a store; a store finds the record that spans a position of its queue.",
        "store log 00*700", "count", "takes 698", "takes 699", f"put {show(one)}", f"put {show(two)}", f"put {show(three)}", "count",
        "takes 332", "takes 333", "cover 0 1 ff*314", "cover 0 2 ff*320", "cover 0 5 ff*314", "cover 0 6 ff*314", "cover 0 0 ff*314",
        "cover 1 3 ff*314", "cover 2 1 ff*314", "cover 255 1 ff*314", "cover 0 1 ff*313",
        "# Refused: not a record, a position that is spanned already, a record that does not fit; in this order.",
        "put -", f"put {show(one[:-1])}", f"put {show(one + bytes(1))}", f"put {show(record(0, 5, 6, b'e' * 201))}",
        f"put {show(record(0, 5, 6, b'', counter=2))}", f"put {show(record(0, 5, 6, b'', counter=17))}", f"put {show(record(0, 6, 6, b''))}",
        f"put {show(record(0, 7, 6, b''))}", f"put {show(record(0, 0, 1, b''))}", f"put {show(record(0, 4, 9, b''))}",
        f"put {show(record(0, 1, 2, b'x' * 200))}", f"put {show(longest)}", f"put {show(record(7, 6, 9, b't' * 200))}", "count",
        "# Forgetting takes the records of one queue whose last position is below a number.",
        "forget 0 1", "count", "forget 0 2", "count", "forget 255 9", "forget 2 100", "cover 0 1 ff*314", "cover 0 3 ff*314",
        f"put {show(one)}", "cover 0 1 ff*314", "forget 1 4294967295", "count", "close",
        "# The smallest logs: 116 bytes take a record with an empty text, 115 do not.",
        "store log 00*116", f"put {show(three)}", "takes 0", "close", "store log 00*115", f"put {show(three)}", "takes 113", "takes 114", "close",
        "store log -", "takes 0", "close", "store log ff*65536", "takes 65534", "takes 65535", "close",
        "# An area that is too long is left alone.",
        "store log ff*65537", "takes 0", f"put {show(three)}", f"put {show(one[:-1])}", "cover 1 1 ff*314", "forget 1 9", "count", "close",
        "# Slots: freed slots take the contents of the last one in use.",
        "store slot ff*1280 4", "takes 70000", f"put {show(one)}", f"put {show(three)}", f"put {show(two)}", f"put {show(longest)}", "takes 0",
        f"put {show(record(2, 0, 1, b''))}", f"put {show(record(1, 2, 3, b''))}", "cover 7 4294967295 ff*314", "cover 7 6 ff*314", "cover 1 2 00*400",
        "forget 0 6", "count", "cover 0 1 ff*314", f"put {show(record(0, 5, 9, b'again'))}", "close",
        "store slot 00*960 3", f"put {show(one)}", f"put {show(three)}", f"put {show(two)}", "forget 0 2", "close",
        "store slot 00*640 2", f"put {show(one)}", f"put {show(two)}", "forget 0 9", "count", "close",
        "store slot - 0", "takes 0", f"put {show(one)}", "close", "store slot ff*640 3", "takes 1", f"put {show(one)}", "close",
        "store slot ff*639 2", "takes 1", "close", "store slot 00*64320 201", "takes 1", "close",
        "store drum 00*640 2", "store slot 00*640", "store log 00*640 2", "",
    ]
    return "\n".join(lines) + "\n"


def answer(kind, signed, previous=b"", text=b"", k=None, length=None):
    head = bytes([kind, len(signed) if k is None else k, len(text) if length is None else length])
    return head + b"".join(d for d, _ in signed) + b"".join(t for _, t in signed) + previous + text


def found(queue, old, new, text, previous=bytes(32), counter=None, claimed=None, **other):
    matter = digest_rule(queue, old, new, previous, text)
    signed = statement(2 * queue + 1 if counter is None else counter, old, new, matter, **other)
    return answer(1, [signed], previous, text if claimed is None else claimed)


def ended(queue, old, new, text, number=None, nonce=NONCE, swap=None, key=KEY):
    previous = b"\x33" * 32
    status = statement(2 * queue + 1, new if number is None else number, new if number is None else number, nonce)
    advance = statement(2 * queue + 1, old, new, digest_rule(queue, old, new, previous, text), key=key)
    parts = [status, advance]
    if swap == "statements":
        parts = parts[::-1]
    if swap == "tags":
        parts = [(status[0], advance[1]), (advance[0], status[1])]
    return answer(5, parts, previous, text)


def at(queue, position, data, nonce=NONCE, working="ff*64"):
    return f"check {queue} {position} {show(nonce)} {show(data)} {working}"


def status_of(kind, counter, old, new=None, nonce=NONCE, **other):
    return answer(kind, [statement(counter, old, old if new is None else new, nonce, **other)])


def readers():
    """A reader: true answers of every kind, and answers that are damaged, spliced, or rightly signed and wrong."""
    true = found(0, 4, 5, b"text")
    skip = answer(2, [statement(1, 1, 5, bytes(32))])
    longer = found(0, 4, 5, b"text", claimed=b"text!")
    cut = bytearray(true)
    cut[2] = 3
    tag_hit, text_hit = bytearray(true), bytearray(true)
    tag_hit[3 + 49 + 31] ^= 1
    text_hit[-1] ^= 1
    lines = [
        "# A reader holds the dongle's identity and key, and checks every answer against a challenge of his own.",
        f"reader {show(IDENTITY)} {show(KEY)}",
        "# True answers of each kind.",
        at(0, 5, true), at(0, 5, found(0, 4, 5, b"")), at(7, 9, found(7, 0, 9, b"t" * 200)), at(0, 2, skip), at(0, 4, skip),
        at(0, 3, status_of(3, 0, 4)), at(0, 6, status_of(4, 1, 5)), at(0, "end", ended(0, 4, 5, b"last words")), at(0, "end", status_of(6, 1, 0)),
        at(3, "end", ended(3, 0, 1, b"")),
        "# Number rules at their edges.",
        at(0, 4, true), at(0, 6, true), at(0, 1, skip), at(0, 5, skip), at(0, 4, status_of(3, 0, 4)), at(0, 5, status_of(4, 1, 5)),
        at(0, "end", ended(0, 4, 5, b"x", number=4)), at(0, "end", status_of(6, 1, 1)), at(0, "end", ended(0, 0, 0, b"x")),
        "# A status offered as an advance, an advance offered as a status.",
        at(0, 5, found(0, 5, 5, b"text")), at(0, 3, status_of(3, 0, 3, 4)), at(0, 6, status_of(4, 1, 4, 5)),
        "# Another queue's status, another counter, another identity, another key.",
        at(1, 3, status_of(3, 0, 4)), at(0, 3, status_of(3, 1, 4)), at(0, 6, status_of(4, 0, 5)), at(0, 5, found(0, 4, 5, b"text", counter=3)),
        at(0, 5, found(0, 4, 5, b"text", identity=bytes(8))), at(0, 5, found(0, 4, 5, b"text", key=bytes(32))),
        "# A true reply from an earlier challenge: the nonce differs.",
        at(0, 3, status_of(3, 0, 4), nonce=OTHER), at(0, 6, status_of(4, 1, 5), nonce=OTHER), at(0, "end", ended(0, 4, 5, b"x"), nonce=OTHER),
        at(0, "end", status_of(6, 1, 0), nonce=OTHER),
        "# Statements swapped, tags swapped, the second statement signed with another key.",
        at(0, "end", ended(0, 4, 5, b"x", swap="statements")), at(0, "end", ended(0, 4, 5, b"x", swap="tags")), at(0, "end", ended(0, 4, 5, b"x", key=bytes(32))),
        "# A tag, a text or the text's length changed by one; a text of another queue.",
        at(0, 5, tag_hit), at(0, 5, text_hit), at(0, 5, longer), at(0, 5, cut), at(1, 5, found(0, 4, 5, b"text", counter=3)),
        "# The answer's form: its length, its kind, the number of statements, a text where none belongs.",
        at(0, 5, b""), at(0, 5, b"\x01\x01"), at(0, 5, b"\x01\x01\x00"), at(0, 5, true[:-1]), at(0, 5, true + b"!"), at(0, 5, b"\x09\x00\x00"),
        at(0, 5, b"\x00\x00\x00"), at(0, 5, status_of(6, 1, 0)), at(0, "end", true), at(0, "end", status_of(4, 1, 5)), at(0, 5, b"\x02\x00\x00"),
        at(0, 5, answer(2, [statement(1, 1, 9, bytes(32))] * 2)), at(0, "end", ended(0, 4, 5, b"t" * 201)), at(0, 5, found(0, 4, 5, b"t" * 201)),
        at(0, 3, answer(3, [statement(0, 4, 4, NONCE)], length=7)),
        "# The working area comes first, and is wiped whatever came of it.",
        at(0, 5, b"", working="ff*63"), at(0, 5, true, working="ff*70"), at(0, 5, true, working="-"),
        "# What cannot be drawn, and what is given up.",
        at(8, 5, true), at(255, 0, true), at(7, 0, true), at(8, "end", true),
        f"give-up 0 1 {show(NONCE)}", f"give-up 7 end {show(NONCE)}", f"give-up 8 end {show(NONCE)}", f"give-up 0 0 {show(NONCE)}", f"give-up 8 0 {show(NONCE)}",
        "give-up 0 last 00*32", "give-up 0 1 00*31", "check 0 1 00*32 00", "close", "reader 00*7 00*32", "reader 00*8 00*33", "",
    ]
    return "\n".join(lines) + "\n"


def part(name):
    with open(os.path.join(HERE, "example", name)) as file:
        return file.read()


def main():
    script = part("layers.txt") + stores() + readers() + part("errors.txt")
    folder = os.path.join(HERE, "..", "crates", "console")
    with open(os.path.join(folder, "stdin"), "w") as file:
        file.write(script)
    out = io.BytesIO()
    Console(script.encode(), out).run()
    with open(os.path.join(folder, "stdout"), "wb") as file:
        file.write(out.getvalue())


if __name__ == "__main__":
    main()
