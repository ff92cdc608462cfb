"""Every character of Unicode in payloads of a capture, and how flux_frame has to show each.

unicode.py CAPTURE SHOWN FIRST-LAST...: the stretches are the characters that hide. They have to have all
that this Python's Unicode says do, by category, and none that it says are letters, marks or signs.
"""
import struct
import sys
import unicodedata

HIDING = ("Cc", "Cf", "Zl", "Zp", "Co")
NOT_BY_CATEGORY = {0x034F, 0x115F, 0x1160, 0x17B4, 0x17B5, 0x2800, 0x3164, 0xFFA0}
NOT_BY_CATEGORY.update(range(0x180B, 0x1810), range(0xFE00, 0xFE10), range(0xE0100, 0xE01F0))


def frame(payload):
    topic = b"\x02x\0"
    size = bytes([len(payload)]) if len(payload) < 255 else b"\xff" + struct.pack(">I", len(payload))
    body = topic + size + payload + b"\x14\x8e\x01\x04\x03" + bytes(16)
    return b"\xff\xee\x00\x12" + struct.pack(">I", len(body)) + body


def escape(number):
    if number < 0x10000:
        return "\\u%04x" % number
    return "\\u%04x\\u%04x" % (0xD7C0 + (number >> 10), 0xDC00 + (number & 0x3FF))


def main(capture, shown, *stretches):
    hidden = set()
    for stretch in stretches:
        first, last = (int(end, 16) for end in stretch.split("-"))
        hidden.update(range(first, last + 1))
    known = [c for c in range(0xA0, 0x110000) if unicodedata.category(chr(c)) not in ("Cn", "Cs")]
    wrong = [c for c in known if (c in hidden) != (unicodedata.category(chr(c)) in HIDING or c in NOT_BY_CATEGORY)]
    for number in wrong:
        print("U+%04X" % number, unicodedata.category(chr(number)))
    with open(capture, "wb") as frames, open(shown, "wb") as lines:
        for at in range(0, len(known), 4000):
            some = known[at : at + 4000]
            text = "".join(escape(c) if c in hidden else chr(c) for c in some)
            frames.write(frame(('{"":"%s"}\0' % "".join(map(chr, some))).encode()))
            lines.write(('{"":"%s"}\n' % text).encode())
    return 1 if wrong else 0


sys.exit(main(*sys.argv[1:]))
