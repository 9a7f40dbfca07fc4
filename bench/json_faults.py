#!/usr/bin/env python3
"""Makes JSON texts, most of them with something wrong, and tells the fault of each by the table of faults.

    json_faults.py SEED COUNT

writes COUNT texts to texts.hex, a line of hexadecimal digits each, and the wanted answers to answers.txt. It knows
nothing of how sx_json reads: it goes over a text once, notes each fault with the byte at which it is known, and takes the
one that is known first. README.md says how the two are compared.
"""
import random
import sys

ROWS = ["BadByte", "TooDeep", "DuplicateName", "LoneSurrogate", "NumberTooLong", "StringTooLong", "Ended"]
SHORT = {0x22: 0x22, 0x5C: 0x5C, 0x2F: 0x2F, 0x62: 8, 0x66: 12, 0x6E: 10, 0x72: 13, 0x74: 9}
WORDS = {0x74: b"true", 0x66: b"false", 0x6E: b"null"}


class Stop(Exception):
    """No text of the grammar goes on."""


class Text:
    def __init__(self, whole):
        try:
            whole.decode()
            valid = len(whole)
        except UnicodeDecodeError as error:
            valid = error.start
        self.bytes, self.cut, self.at, self.known = whole[:valid], valid < len(whole), 0, []

    def know(self, name, byte, place=None):
        self.known.append((byte, ROWS.index(name), place))

    def bad(self, byte):
        self.know("BadByte", byte, byte)
        raise Stop

    def end(self):
        if self.cut:
            self.bad(len(self.bytes))
        self.know("Ended", len(self.bytes))
        raise Stop

    def peek(self, ahead=0):
        if self.at + ahead >= len(self.bytes):
            self.end()
        return self.bytes[self.at + ahead]

    def blanks(self):
        while self.at < len(self.bytes) and self.bytes[self.at] in b" \t\n\r":
            self.at += 1

    def unit(self):
        """The number of the four digits behind the backslash and the u that stand here."""
        value = 0
        for ahead in range(2, 6):
            byte = self.peek(ahead)
            if byte not in b"0123456789abcdefABCDEF":
                self.bad(self.at + ahead)
            value = value * 16 + int(chr(byte), 16)
        return value

    def string(self):
        """Goes over a string. The result is the place of its opening quote and its content, or None with a lone surrogate."""
        start, content, lone, high = self.at, bytearray(), False, None
        self.at += 1
        while True:
            byte = self.peek()
            if byte != 0x5C:
                if high is not None:
                    self.know("LoneSurrogate", self.at, high[0])
                    lone, high = True, None
                if byte == 0x22:
                    self.at += 1
                    return start, None if lone else bytes(content)
                if byte < 0x20:
                    self.bad(self.at)
                content.append(byte)
                self.at += 1
            elif self.peek(1) == 0x75:
                value, last = self.unit(), self.at + 5
                low = 0xDC00 <= value <= 0xDFFF
                if high is not None and low:
                    content += chr(0x10000 + ((high[1] - 0xD800) << 10) + value - 0xDC00).encode()
                    high = None
                else:
                    if high is not None or low:
                        self.know("LoneSurrogate", last, self.at if high is None else high[0])
                        lone, high = True, None
                    if 0xD800 <= value <= 0xDBFF:
                        high = (self.at, value)
                    elif not low:
                        content += chr(value).encode()
                self.at = last + 1
            else:
                letter = self.peek(1)
                if high is not None:
                    self.know("LoneSurrogate", self.at + 1, high[0])
                    lone, high = True, None
                if letter not in SHORT:
                    self.bad(self.at + 1)
                content.append(SHORT[letter])
                self.at += 2
            if len(content) > 1_048_576:
                self.know("StringTooLong", self.at - 1, start)

    def number(self):
        start = self.at

        def take():
            self.at += 1
            if self.at - start == 65:
                self.know("NumberTooLong", self.at - 1, start)

        def here(some):
            return self.at < len(self.bytes) and self.bytes[self.at] in some

        def digits():
            if self.peek() not in b"0123456789":
                self.bad(self.at)
            while here(b"0123456789"):
                take()

        if here(b"-"):
            take()
        if self.peek() == 0x30:
            take()
        else:
            digits()
        if here(b"."):
            take()
            digits()
        if here(b"eE"):
            take()
            if here(b"+-"):
                take()
            digits()

    def word(self, word):
        for byte in word:
            if self.peek() != byte:
                self.bad(self.at)
            self.at += 1

    def name(self, names):
        """Goes over a name and its colon."""
        if self.peek() != 0x22:
            self.bad(self.at)
        start, name = self.string()
        if name is not None:
            if name in names:
                self.know("DuplicateName", self.at - 1, start)
            names.append(name)
        self.blanks()
        if self.peek() != 0x3A:
            self.bad(self.at)
        self.at += 1

    def value(self):
        """Goes over a value. Of each open array or object the stack has None or the names."""
        stack = []
        while True:
            self.blanks()
            first = self.peek()
            if first in b"[{":
                if len(stack) == 256:
                    self.know("TooDeep", self.at, self.at)
                self.at += 1
                self.blanks()
                stack.append(None if first == 0x5B else [])
                if self.peek() != first + 2:
                    if first == 0x7B:
                        self.name(stack[-1])
                    continue
                self.at += 1
                stack.pop()
            elif first == 0x22:
                self.string()
            elif first in b"-0123456789":
                self.number()
            elif first in WORDS:
                self.word(WORDS[first])
            else:
                self.bad(self.at)
            while stack:
                self.blanks()
                byte = self.peek()
                if byte == 0x2C:
                    self.at += 1
                    self.blanks()
                    if stack[-1] is not None:
                        self.name(stack[-1])
                    break
                if byte != (0x5D if stack[-1] is None else 0x7D):
                    self.bad(self.at)
                self.at += 1
                stack.pop()
            else:
                return

    def answer(self):
        try:
            self.value()
            self.blanks()
            if self.at < len(self.bytes) or self.cut:
                self.bad(self.at)
        except Stop:
            pass
        if not self.known:
            return "Ok"
        _, row, place = min(self.known, key=lambda fault: fault[:2])
        return ROWS[row] if place is None else f"{ROWS[row]} {place}"


class Maker:
    def __init__(self, seed):
        self.random = random.Random(seed)

    def pick(self, *choices):
        return self.random.choice(choices)

    def string(self):
        parts = ["a", "b", "\\n", "\\u0041", "\\ud800", "\\udc00", "\\ud83d\\ude00", "\u00e9", "\U0001F600", "\\q", "\x01", "\\u00zz",
                 "\\", '"', '\\"', "\\/", "\\uD800", "\\uDBFF\\uDFFF", "\\u12"]
        weights = [8, 8, 3, 3, 1, 1, 2, 2, 1, 0.3, 0.3, 0.3, 0.3, 0.2, 2, 1, 1, 1, 0.3]
        return '"' + "".join(self.random.choices(parts, weights, k=self.pick(0, 1, 1, 2, 2, 3, 5))) + '"'

    def number(self):
        return self.pick("0", "-0", "12", "-1.5", "1e5", "1.50E+3", "01", "-", "1.", ".5", "1e", "1e+", "+1", "1" * 63, "1" * 64, "1" * 65,
                         "1" * 63 + ".5", "1" * 60 + "e+5", "1" * 62 + "e+55", "0" + "1" * 70, "-" + "9" * 64, "1." + "0" * 63, "1." + "0" * 62)

    def value(self, depth):
        chance, blank = self.random.random(), self.pick("", "", "", " ", "\n", "\t \r")
        if depth == 0 or chance < 0.45:
            word = self.pick("true", "false", "null", "tru", "nul", "True", "nulll", "falsx")
            return blank + self.pick(self.string(), self.number(), word)
        if chance < 0.7:
            return "[" + ",".join(self.value(depth - 1) for _ in range(self.random.randrange(4))) + blank + "]" + blank
        names = ['"a"', '"a"', '"b"', '"\\u0061"', self.string()]
        members = (blank + self.pick(*names) + blank + ":" + self.value(depth - 1) for _ in range(self.random.randrange(5)))
        return "{" + ",".join(members) + blank + "}"

    def text(self):
        if self.random.random() < 0.03:
            count, opening = self.pick(255, 256, 257, 258), self.pick("[", '{"a":')
            return (opening * count + self.pick("", "1", "]", "}") + self.pick("", "]" * count, "}" * count)).encode()
        text = bytearray(self.value(4).encode())
        for _ in range(self.pick(0, 0, 0, 1, 1, 2)):
            place, chance = self.random.randrange(len(text) + 1), self.random.random()
            if chance < 0.5:
                text[place:place + self.pick(0, 1)] = bytes([self.random.choice(b'[]{}",:\\ut019 \x01\xff\xc3\x80\xed\xa0\xf0\x9f\xe2-.eE+nf')])
            elif chance < 0.8:
                del text[place:place + 1]
            else:
                del text[place:]
        return bytes(text)


def main():
    maker = Maker(int(sys.argv[1]))
    texts = [maker.text() for _ in range(int(sys.argv[2]))]
    with open("texts.hex", "w") as out:
        out.write("\n".join(text.hex() for text in texts))
    with open("answers.txt", "w") as out:
        out.write("".join(Text(text).answer() + "\n" for text in texts))


if __name__ == "__main__":
    main()
