#!/usr/bin/env python3
"""oracle/vectors.py: writes the stdin and the stdout of crates/vectors.

The published vectors stand below as they were published; the others are answers of Python's hashlib and hmac.
"""
import hashlib
import hmac
import os

ABC448 = b"abcdbcdecdefdefgefghfghighijhijkijkljklmklmnlmnomnopnopq"
ABC896 = b"abcdefghbcdefghicdefghijdefghijkefghijklfghijklmghijklmnhijklmnoijklmnopjklmnopqklmnopqrlmnopqrsmnopqrstnopqrstu"

# FIPS 180-4's examples, and NIST's further examples for SHA-256, that have at most 65,536 bytes
DIGESTS = [
    ("abc", b"abc", "ba7816bf8f01cfea414140de5dae2223b00361a396177a9cb410ff61f20015ad"),
    ("empty", b"", "e3b0c44298fc1c149afbf4c8996fb92427ae41e4649b934ca495991b7852b855"),
    ("448-bits", ABC448, "248d6a61d20638b8e5c026930c3e6039a33ce45964ff2167f6ecedd419db06c1"),
    ("896-bits", ABC896, "cf5b16a778af8380036ce59e7b0492370b249b11e8f07a51afac45037afee9d1"),
    ("bd", b"\xbd", "68325720aabd7c82f30f554b313d0570c95accbb7dc4b5aae11204c08ffe732b"),
    ("c98c8e55", b"\xc9\x8c\x8e\x55", "7abc22c0ae5af26ce93dbb94433a0e0b2e119d014f8e7f65bd56c61ccccd9504"),
    ("55-zeros", bytes(55), "02779466cdec163811d078815c633f21901413081449002f24aa3e80f0b88ef7"),
    ("56-zeros", bytes(56), "d4817aa5497628e7c77e6b606107042bbba3130888c5f47a375e6179be789fbb"),
    ("57-zeros", bytes(57), "65a16cb7861335d5ace3c60718b5052e44660726da4cd13bb745381b235a1785"),
    ("64-zeros", bytes(64), "f5a5fd42d16a20302798ef6ed309979b43003d2320d9f0e8ea9831a92759fb4b"),
    ("1000-zeros", bytes(1000), "541b3e9daa09b20bf85fa273e5cbd3e80185aa4ec298e765db87742b70138a53"),
    ("1000-A", b"A" * 1000, "c2e686823489ced2017f6059b8b239318b6364f6dcd835d0a519105a1eadd6e4"),
    ("1005-U", b"U" * 1005, "f4d62ddec0f3dd90ea1380fa16a5ff8dc4c54b21740650f24afc4120903552b0"),
]

# every case of RFC 4231; the fifth was published cut to 16 bytes
LARGE = b"This is a test using a larger than block-size key and a larger than block-size data. The key needs to be hashed before being used by the HMAC algorithm."
TAGS = [
    ("case-1", b"\x0b" * 20, b"Hi There", "b0344c61d8db38535ca8afceaf0bf12b881dc200c9833da726e9376c2e32cff7"),
    ("case-2", b"Jefe", b"what do ya want for nothing?", "5bdcc146bf60754e6a042426089575c75a003f089d2739839dec58b964ec3843"),
    ("case-3", b"\xaa" * 20, b"\xdd" * 50, "773ea91e36800e46854db8ebd09181a72959098b3ef8c122d9635514ced565fe"),
    ("case-4", bytes(range(1, 26)), b"\xcd" * 50, "82558a389a443c0ea4cc819899f2083a85f0faa3e578f8077a2e3ff46729665b"),
    ("case-5", b"\x0c" * 20, b"Test With Truncation", "a3b6167473100ee06e0c796c2955552b"),
    ("case-6", b"\xaa" * 131, b"Test Using Larger Than Block-Size Key - Hash Key First", "60e431591ee0b67f0d8a26aacbf5b77f8e0bc6213728c5140546040f0ee37f54"),
    ("case-7", b"\xaa" * 131, LARGE, "9b09ffa71b942fcb27635fbcd5b0e944bfdc63644f0713938a7f51535c3a35e2"),
]

BLOCK = bytes((7 * i * i + 3 * i + 1) % 256 for i in range(256))


def made(length):
    return (BLOCK * (length // 256 + 1))[:length]


def text(data):
    """Bytes as a script writes them, long ones as a repeated block and its rest."""
    if not data:
        return "-"
    whole = len(data) // 256
    if whole >= 2 and data[:256 * whole] == BLOCK * whole:
        rest = data[256 * whole:]
        return f"{BLOCK.hex()}*{whole}" + (f"+{rest.hex()}" if rest else "")
    return data.hex()


def cases():
    for name, message, answer in DIGESTS:
        yield "published digest " + name, [message], answer
    for name, key, message, answer in TAGS:
        yield "published tag " + name, [key, message], answer
    for length in [*range(131), *range(995, 1006), 65535, 65536]:
        message = made(length)
        yield f"hashlib digest {length}-bytes", [message], hashlib.sha256(message).hexdigest()
    for size in [0, 1, 63, 64, 65, 131, 65536]:
        for length in [0, 1, 55, 56, 63, 64, 65, 1000, 65535, 65536]:
            key, message = made(size), made(length)
            yield f"hmac tag key-{size}-message-{length}", [key, message], hmac.new(key, message, hashlib.sha256).hexdigest()


def main():
    folder = os.path.join(os.path.dirname(os.path.abspath(__file__)), "..", "crates", "vectors")
    count = 0
    with open(os.path.join(folder, "stdin"), "w") as asked, open(os.path.join(folder, "stdout"), "w") as told:
        asked.write("# SOURCE KIND NAME, then the message, or the key and the message, then the answer\n")
        for name, arguments, answer in cases():
            asked.write(" ".join([name, *map(text, arguments), answer]) + "\n")
            told.write(f"right {name}\n")
            count += 1
        told.write(f"{count} right, 0 wrong\n")


if __name__ == "__main__":
    main()
