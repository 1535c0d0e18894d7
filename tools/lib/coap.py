"""Messages of CoAP (RFC 7252 section 3) as the tools beside this file send and read them."""
import struct

CON, NON, ACK, RST = range(4)
GET, POST, PUT, DELETE = range(1, 5)
OBSERVE, LOCATION_PATH, URI_PATH, CONTENT_FORMAT, URI_QUERY, ACCEPT = 6, 8, 11, 12, 15, 17
LINK_FORMAT = 40


def code_text(code):
    """A code as the standard writes it: 2.01."""
    return f"{code >> 5}.{code & 31:02}"


def number(value):
    """A number in the fewest bytes, as an option has it."""
    return value.to_bytes((value.bit_length() + 7) // 8, "big")


def extended(value):
    """The nibble of an option's delta or length, and the bytes that extend it."""
    if value < 13:
        return value, b""
    if value < 269:
        return 13, bytes([value - 13])
    return 14, struct.pack("!H", value - 269)


def encode(kind, code, message_id, token=b"", options=(), payload=b""):
    """The datagram of a message. Its options are pairs of a number and the bytes of a value, those of one number in
    their order."""
    out = [bytes([0x40 | kind << 4 | len(token), code]), struct.pack("!H", message_id), token]
    last = 0
    for option, value in sorted(options, key=lambda it: it[0]):
        delta, more_delta = extended(option - last)
        length, more_length = extended(len(value))
        out += [bytes([delta << 4 | length]), more_delta, more_length, value]
        last = option
    return b"".join([*out, b"\xff" + payload if payload else b""])


def decode(datagram):
    """Kind, code, message ID, token, options and payload of a datagram; ValueError where it is no message."""
    if len(datagram) < 4 or datagram[0] >> 6 != 1 or datagram[0] & 15 > 8:
        raise ValueError("no message")
    length, at = datagram[0] & 15, 4 + (datagram[0] & 15)
    token, options, last = datagram[4:at], [], 0
    if len(token) != length:
        raise ValueError("a cut token")

    def wide(nibble):
        nonlocal at
        if nibble < 13:
            return nibble
        if nibble == 15:
            raise ValueError("a reserved nibble")
        count = nibble - 12
        part, at = datagram[at : at + count], at + count
        if len(part) != count:
            raise ValueError("a cut extension")
        return int.from_bytes(part, "big") + (13 if nibble == 13 else 269)

    while at < len(datagram) and datagram[at] != 0xFF:
        head, at = datagram[at], at + 1
        last += wide(head >> 4)
        size = wide(head & 15)
        value, at = datagram[at : at + size], at + size
        if len(value) != size:
            raise ValueError("a cut value")
        options.append((last, value))
    payload = datagram[at + 1 :]
    if at < len(datagram) and not payload:
        raise ValueError("a marker without a payload")
    kind, code = datagram[0] >> 4 & 3, datagram[1]
    return kind, code, struct.unpack("!H", datagram[2:4])[0], token, options, payload


def values(options, wanted):
    """The values of the options of this number, as texts."""
    return [value.decode("utf-8", "replace") for option, value in options if option == wanted]
