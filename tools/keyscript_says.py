#!/usr/bin/env python3
"""Says what a script of table calls must print, by the rules of docs/KEYSCRIPT.md and docs/TABLE.md alone.

usage: python3 tools/keyscript_says.py < SCRIPT    what it must print
       python3 tools/keyscript_says.py --check     at the top of the repository: whether each stored run is right
       python3 tools/keyscript_says.py --write     writes the inputs and outputs of the two longest stored runs
       python3 tools/keyscript_says.py --random N  runs ./keyscript on N inputs drawn at random

It shares nothing with the program: a table is a dictionary and a list of free keys, and how much of a line begins a
legal one is found by trying each beginning.
"""

import random
import subprocess
import sys

MOST_BYTES = 65536
MOST_KEYS = 64
MOST_NUMBER = 4294967295
NUMBERS = {"m": 1, "i": 1, "a": 2, "r": 1, "g": 1, "p": 2, "n": 0, "l": 0, "k": 0}
LONGEST_LINE = len("a 4294967295 4294967295")
RUNS = ["keyscript", "keyscript_most", "keyscript_over"]


def is_number(word):
    digits = all(48 <= b <= 57 for b in word)
    return 1 <= len(word) <= 10 and digits and int(word) <= MOST_NUMBER


def command(line):
    """The letter and the numbers of a legal line, or None."""
    letter, *words = line.split(b" ")
    letter = letter.decode("latin-1")
    if NUMBERS.get(letter) != len(words) or not all(map(is_number, words)):
        return None
    return letter, [int(w) for w in words]


def begins(text):
    """Whether some legal line begins with text."""
    if text == b"":
        return True
    letter, *words = text.split(b" ")
    most = NUMBERS.get(letter.decode("latin-1"))
    if most is None or len(words) > most:
        return False
    return all(map(is_number, words[:-1])) and (not words or words[-1] == b"" or is_number(words[-1]))


def shared(line):
    return max(n for n in range(min(len(line), LONGEST_LINE) + 1) if begins(line[:n]))


class Table:
    def __init__(self, capacity):
        self.capacity = capacity
        self.held = {}
        self.free = list(range(capacity))

    def hold(self, key, value):
        if key in self.free:
            self.free.remove(key)
        self.held[key] = value

    def insert(self, value):
        if not self.free:
            return None
        key = self.free[0]
        self.hold(key, value)
        return key

    def remove(self, key):
        value = self.held.pop(key, None)
        if value is not None:
            self.free.insert(0, key)
        return value

    def replace(self, key, value):
        old = self.held.get(key)
        if old is not None:
            self.held[key] = value
        return old


def number(n):
    return "none" if n is None else str(n)


def listed(table):
    return " ".join(f"{k}={table.held[k]}" for k in sorted(table.held)) or "-"


def said(table, letter, numbers):
    """What a legal line prints, and the table after it."""
    if letter == "m":
        return ("refused 6", table) if numbers[0] > MOST_KEYS else ("ok", Table(numbers[0]))
    if letter in "argp" and numbers[0] >= table.capacity:
        return "refused 1", table
    if letter == "a":
        table.hold(*numbers)
        return "ok", table
    answers = {
        "i": lambda value: number(table.insert(value)),
        "r": lambda key: number(table.remove(key)),
        "g": lambda key: number(table.held.get(key)),
        "p": lambda key, value: number(table.replace(key, value)),
        "n": lambda: number(table.free[0] if table.free else None),
        "l": lambda: str(len(table.held)),
        "k": lambda: listed(table),
    }
    return answers[letter](*numbers), table


def transcript(text):
    if len(text) > MOST_BYTES:
        return f"refused 12 {MOST_BYTES}\n"
    lines = text.split(b"\n")
    if lines[-1] == b"":
        lines.pop()
    table = Table(0)
    out = []
    for line in lines:
        legal = command(line)
        if legal:
            printed, table = said(table, *legal)
        else:
            printed = f"refused 12 {shared(line)}"
        out.append(printed + "\n")
    return "".join(out)


def some_line(chance):
    letter = chance.choices("miargpnlk?", [1, 30, 10, 20, 8, 8, 6, 3, 1, 4])[0]
    key = chance.choice([chance.randrange(12), chance.randrange(70)])
    value = chance.choice([chance.randrange(100), chance.randrange(MOST_NUMBER + 1), MOST_NUMBER])
    if letter == "m":
        return f"m {chance.choice([0, 1, 5, 12, 12, 63, 64, 64, 65, MOST_NUMBER])}"
    if letter == "?":
        return chance.choice(["", "m", "i ", "a 1", "a 1 ", "p 3 4 5", "r\t1", "x", "i 4294967296", "k ", "g 00000000001", "\r"])
    numbers = {"i": [value], "a": [key, value], "r": [key], "g": [key], "p": [key, value]}.get(letter, [])
    return " ".join([letter] + [str(n) for n in numbers])


def script_of(length):
    """A script of that many bytes: a full table, then lines drawn alike each time, and last `k` without an end."""
    chance = random.Random(4)
    text = "m 64\n" + "i 7\n" * 65 + "n\nl\nk\nr 5\nn\ni 8\nk\nm 12\n"
    while True:
        line = some_line(chance) + "\n"
        if len(text) + len(line) > length - 2:
            break
        text += line
    return (text + " " * (length - len(text) - 2) + "\n" + "k").encode("latin-1")


def write_runs():
    for name, length in [("keyscript_most", MOST_BYTES), ("keyscript_over", MOST_BYTES + 1)]:
        script = script_of(length)
        assert len(script) == length
        with open(f"crates/{name}/stdin", "wb") as f:
            f.write(script)
        with open(f"crates/{name}/stdout", "w", encoding="ascii") as f:
            f.write(transcript(script))


def check_runs():
    wrong = 0
    for name in RUNS:
        with open(f"crates/{name}/stdin", "rb") as f:
            script = f.read()
        with open(f"crates/{name}/stdout", encoding="ascii") as f:
            right = f.read() == transcript(script)
        print(f"{name}: {len(script)} bytes, {'right' if right else 'WRONG'}")
        wrong += not right
    return wrong


def some_script(chance):
    """Lines of all kinds, at times with one byte changed; or bytes that scripts are made of, and others."""
    if chance.random() < 0.5:
        return bytes(chance.choice(b"miargpnlk    \n\n\n0123456789456\t\r\xffx\0") for _ in range(chance.randrange(200)))
    script = "".join(some_line(chance) + "\n" for _ in range(chance.randrange(60))).encode("latin-1")
    if script and chance.random() < 0.3:
        place = chance.randrange(len(script))
        script = script[:place] + bytes([chance.randrange(256)]) + script[place + 1 :]
    return script


def try_random(count):
    chance = random.Random(7)
    for _ in range(count):
        script = some_script(chance)
        run = subprocess.run(["./keyscript"], input=script, capture_output=True)
        if run.returncode or run.stdout.decode("latin-1") != transcript(script):
            sys.exit(f"differs on {script}")
    print(f"{count} alike")


if __name__ == "__main__":
    if sys.argv[1:2] == ["--random"]:
        try_random(int(sys.argv[2]))
    elif sys.argv[1:] == ["--write"]:
        write_runs()
    elif sys.argv[1:] == ["--check"]:
        sys.exit(check_runs())
    else:
        sys.stdout.write(transcript(sys.stdin.buffer.read()))
