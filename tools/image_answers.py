#!/usr/bin/env python3
"""Makes the rows of answers in crates/images/src/answers.rt: what a reader of images must say of broken ones.

usage: python3 tools/image_answers.py > crates/images/src/answers.rt

It reads images by docs/IMAGE.md and by no code of the crates. For each image below it tries every truncation and every
byte at every place, and writes what is the answer to it: none where the bytes are an image, else the offset at which they
break a rule. Neighbouring bytes with one answer are one row.
"""

import struct


def image(width, capacity, values):
    head = b"SM\x01" + bytes([width]) + struct.pack("<HH", capacity, len(values))
    return head + b"".join(b"SV" + struct.pack("<H", key) + value for key, value in values) + b"SE"


def broken_at(data):
    """None for an image, else the offset of the first record, or of the first byte after the end, that breaks a rule."""
    if len(data) < 8 or data[:3] != b"SM\x01":
        return 0
    width, capacity, held = struct.unpack("<BHH", data[3:8])
    if width == 0 or held > capacity:
        return 0
    size = 4 + width
    keys = []
    for number in range(held):
        start = 8 + number * size
        whole = data[start : start + size]
        if len(whole) < size or whole[:2] != b"SV":
            return start
        keys.append(struct.unpack("<H", whole[2:4])[0])
        if keys[-1] >= capacity or sorted(set(keys)) != keys:
            return start
    end = 8 + held * size
    if data[end : end + 2] != b"SE":
        return end
    return None if len(data) == end + 2 else end + 2


def option(answer):
    return "None" if answer is None else f"Some({answer})"


def changes(data):
    rows = []
    for place in range(len(data)):
        first = 0
        answers = [broken_at(data[:place] + bytes([byte]) + data[place + 1 :]) for byte in range(256)]
        for byte in range(1, 257):
            if byte == 256 or answers[byte] != answers[first]:
                rows.append((place, first, byte - 1, answers[first]))
                first = byte
    return rows


def table(name, data):
    print(f"\npub const {name}: [u8; {len(data)}] = [")
    for start in range(0, len(data), 16):
        print("    " + " ".join(f"0x{byte:02x}," for byte in data[start : start + 16]))
    print("];\n")
    print("// What is answered to so many of its first bytes: to none of them, to one, and so on, to all but one.")
    print(f"pub const {name}_CUT: [Option<u64>; {len(data)}] = [")
    for length in range(len(data)):
        print(f"    {option(broken_at(data[:length]))},")
    print("];\n")
    rows = changes(data)
    print("// A place, the first and the last byte that may stand there, and what is answered where one of these does.")
    print(f"pub const {name}_CHANGED: [(usize, u8, u8, Option<u64>); {len(rows)}] = [")
    for place, first, last, answer in rows:
        print(f"    ({place}, {first}, {last}, {option(answer)}),")
    print("];")


print("// What must be answered to images that are cut short or have one byte changed.")
print("// Made by tools/image_answers.py, which reads images by docs/IMAGE.md and by no code of these crates.")
table("ONE_NUMBER", image(4, 3, [(1, struct.pack("<I", 7))]))
table("TWO_BYTES", image(1, 259, [(2, b"\xfe"), (258, b"\x0a")]))
