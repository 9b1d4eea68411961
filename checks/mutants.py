"""Texts with random changes."""
import re

# What a reader of numbers, of XML or of HTTP may trip over.
NUMBERS = [b"0", b"-1", b"+1", b"00", b"1.5", b"1e9", b"2147483648", b"4294967296", b"4611686018427387904", b"4611686018427387905",
           b"9223372036854775808", b"18446744073709551615", b"18446744073709551616", b"9" * 40, b"", b" 1", b"0x10"]
PIECES = [b"<", b">", b"/>", b"</", b"&", b"&amp;", b"&lt", b"&#0;", b"&#x10FFFF;", b"&#xD800;", b"&x;", b"<!--", b"-->", b"<![CDATA[",
          b"]]>", b"<!DOCTYPE a [<!ENTITY a 'b'>]>", b"<?xml", b"?>", b"\"", b"'", b"=", b" ", b"\n", b"\r", b"\r\n", b"\r\n\r\n", b"\t",
          b"\0", b"\x7f", b"\xff", b"\xc3", b"\xed\xa0\x80", b"\xf4\x90\x80\x80", b"\xef\xbb\xbf", b"xmlns=\"\"", b":", b"..", b"/", b"\\",
          b"%", b"%00", b"%2e%2e%2f", b"file", b"size=\"1\"", b"name=\"a\"", b"optional=\"true\"", b"group=\"g\"", b"<file/>",
          b"<hash/>", b"Content-Length: 1\r\n", b"Host: x\r\n", b"HTTP/1.1 200 OK\r\n"]


def flipped(chance, text, place):
    byte = text[place] ^ (1 << chance.randrange(8)) if text[place:] else 0
    return text[:place] + bytes([byte]) + text[place + 1:]


def renumbered(chance, text, place):
    """One of the numbers in it is another one."""
    found = list(re.finditer(rb"\d+", text))
    if not found:
        return text + chance.choice(NUMBERS)
    it = chance.choice(found)
    return text[:it.start()] + chance.choice(NUMBERS) + text[it.end():]


def again(chance, text, place):
    """A part of it stands once more, or many times."""
    end = place + chance.choice([1, 10, 100, 1000])
    times = chance.choice([1, 1, 1, 2, 60])
    at = chance.choice([place, chance.randrange(len(text) + 1)])
    return text[:at] + text[place:end] * times + text[at:]


CHANGES = [
    flipped,
    renumbered,
    again,
    lambda chance, text, place: text[:place] + text[place + chance.choice([1, 1, 5, 50, 500]):],
    lambda chance, text, place: text[:place],
    lambda chance, text, place: text[:place] + chance.choice(PIECES) + text[place:],
    lambda chance, text, place: text[:place] + chance.randbytes(chance.randrange(40)) + text[place:],
    lambda chance, text, place: text[:place] + chance.choice(PIECES) * 100 + text[place:],
]


def mutant(chance, text):
    """The text with one change, or with several."""
    for _ in range(chance.choice([1, 1, 1, 2, 5, 20])):
        text = chance.choice(CHANGES)(chance, text, chance.randrange(len(text) + 1))
    return text
