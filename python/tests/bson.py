"""Bytes of BSON, by the specification."""

import struct


def field(kind: int, name: str, value: bytes) -> bytes:
    """An element of BSON."""
    return bytes([kind]) + name.encode() + b"\0" + value


def document(*fields: bytes) -> bytes:
    """A document of BSON."""
    body = b"".join(fields)
    return (len(body) + 5).to_bytes(4, "little") + body + b"\0"


def text(value: str) -> bytes:
    """The value of a text of BSON."""
    data = value.encode()
    return (len(data) + 1).to_bytes(4, "little") + data + b"\0"


def string(name: str, value: str) -> bytes:
    """A field that is a text."""
    return field(0x02, name, text(value))


def int32(value: int) -> bytes:
    """The value of an int32."""
    return value.to_bytes(4, "little", signed=True)


def int64(value: int) -> bytes:
    """The value of an int64, and of a date."""
    return value.to_bytes(8, "little", signed=True)


def double(value: float) -> bytes:
    """The value of a double."""
    return struct.pack("<d", value)


def decimal(digits: int, power: int = 0, is_negative: bool = False) -> bytes:
    """The value of a decimal128, of at most 34 digits and a power of ten."""
    return (digits | power + 6176 << 113 | is_negative << 127).to_bytes(16, "little")
