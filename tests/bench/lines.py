"""The parts of a bench line: decimal numbers, octets in hex, addresses. A part of the model: "Bench print" of document 01 says what they
look like, and anything else makes a bad line.
"""
from gtp import number


class Bad(Exception):
    pass


def decimal(text):
    digits = text.lstrip(b"0")  # leading zeros are allowed, however many
    if not text or any(c not in b"0123456789" for c in text) or len(digits) > 3 or int(digits or b"0") > 255:
        raise Bad
    return int(digits or b"0")


def octets(text, most):
    if len(text) % 2 or any(c not in b"0123456789ABCDEF" for c in text) or len(text) > 2 * most:
        raise Bad
    return bytes.fromhex(text.decode())


def address(text):
    if len(text) != 8:
        raise Bad
    return number(octets(text, 4))
