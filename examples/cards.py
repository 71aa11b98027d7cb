#!/usr/bin/env python3
"""Makes cards from their short form: cards.py < SHORT > CARDS.

Words stand apart by blanks and line ends. ESD, TXT, RLD and END are the columns that such a card begins with: ESD and
RLD columns 1 to 10, TXT 1 to 5, END 1 to 4. A name of capitals, digits, $, #, @ and _ is eight columns of EBCDIC.
Digits in lower case are bytes, two digits each, and a point is a blank. A slash fills the card with blanks to column 80.
"""
import re
import sys

HEADS = {"ESD": "02c5e2c4......", "TXT": "02e3e7e3.", "RLD": "02d9d3c4......", "END": "02c5d5c4"}


def word_bytes(word):
    """The bytes of a word other than a slash."""
    if word not in HEADS and re.fullmatch(r"[A-Z$#@_][A-Z0-9$#@_]{0,7}", word):
        return word.ljust(8).encode("cp037")
    digits = HEADS.get(word, word).replace(".", "40")
    return bytes.fromhex(digits)


def cards(text):
    """The cards of a text in short form."""
    out = bytearray()
    for word in text.split():
        out += b"\x40" * (-len(out) % 80) if word == "/" else word_bytes(word)
    return bytes(out)


if __name__ == "__main__":
    sys.stdout.buffer.write(cards(sys.stdin.read()))
