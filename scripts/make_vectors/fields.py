"""Fields of Protocol Buffers as bytes: what a message is made of."""
from functools import lru_cache


@lru_cache
def varint(number, length=None):
    """The varint of a number below 2^64: the shortest, or one of so many bytes, which may be more than it needs."""
    groups = [number & 127]
    while number > 127:
        number >>= 7
        groups.append(number & 127)
    groups += [0] * ((length or 0) - len(groups))
    return bytes([group | 128 for group in groups[:-1]] + groups[-1:])


def zigzag(number):
    """0, -1, 1, -2 as 0, 1, 2, 3."""
    return 2 * number if number >= 0 else -2 * number - 1


def plain(number):
    """The number itself: how an unsigned one stands."""
    return number


@lru_cache
def key(field, wire):
    """The key of a field: its number and its wire type."""
    return varint(field * 8 + wire)


@lru_cache
def number(field, value):
    """A field of a number."""
    return key(field, 0) + varint(value)


def signed(field, value):
    """A field of a number with a sign."""
    return number(field, zigzag(value))


def eight(field, value):
    """A field of eight bytes."""
    return key(field, 1) + value.to_bytes(8, "little")


def four(field, value):
    """A field of four bytes."""
    return key(field, 5) + value.to_bytes(4, "little")


def block(field, content):
    """A field of bytes, a text or a message."""
    content = content.encode() if isinstance(content, str) else content
    return key(field, 2) + varint(len(content)) + content


def packed(field, numbers):
    """A list of numbers in one field, and nothing for an empty list."""
    return block(field, b"".join(map(varint, numbers))) if numbers else b""


def apart(field, numbers):
    """A list of numbers, a field a number."""
    return b"".join(number(field, value) for value in numbers)
