"""Bytes as the tools read and write them: hexadecimal, frames and what a stream gives, messages and pages, packets of displays."""
import re

DLE, STX, ETX, ACK, NAK = 0x10, 0x02, 0x03, 0x06, 0x15
MOST_PACKET = 2048

# The greatest value of a byte that has one.
LIMITS = {"m": 15, "l": 15, "d": 127, "s": 127, "v": 127, "size": 2, "operation": 1, "salvo": 127, "status": 4, "details": 1, "validity": 2}
# What stands behind the command byte of each message, byte by byte; pages of dumps and of names aside.
LAYOUTS = {
    1: "ml mu d", 2: "ml mu d s", 3: "ml mu d s", 4: "ml mu d s",
    10: "ml mu d", 11: "ml details mu d v", 12: "ml mu d v", 13: "ml details mu d v", 14: "ml mu d v", 15: "ml details mu d v",
    21: "ml",
    100: "ml size", 101: "ml size high low", 102: "ml size", 103: "ml size high low",
    120: "ml mu d s salvo", 121: "operation salvo", 122: "ml mu d s salvo", 123: "status salvo", 124: "salvo index",
    125: "ml mu d s salvo index validity",
    129: "m l dh dl", 130: "m l dh dl sh sl", 131: "m l dh dl sh sl", 132: "m l dh dl sh sl",
}
DUMP = 23
# Fields that are a byte of their own, and those of two bytes.
PLAIN = ("size", "operation", "salvo", "status", "details", "index", "validity")
WIDE = (("number", "high", "low"), ("destination", "dh", "dl"), ("source", "sh", "sl"))
# The source that says 'parked', where a source has ten bits and where it has sixteen.
PARKED, EXT_PARKED = 1023, 65535


class Unread(Exception):
    """Why bytes or words can't be read."""


def number_of(many, one, several):
    """A number and what is counted."""
    return f"{many} {one if many == 1 else several}"


def bytes_of(text):
    """The bytes of hexadecimal with spaces anywhere, or why there are none."""
    digits = text.replace(" ", "")
    if not re.fullmatch(r"[0-9A-Fa-f]+", digits):
        raise Unread("this isn't hexadecimal")
    if len(digits) % 2:
        raise Unread("a digit is missing: the number of hexadecimal digits is odd")
    return bytes.fromhex(digits)


def fields_of(layout, data):
    """The bytes behind a command by their names, or why they are none."""
    parts = layout.split()
    longest = len(parts) + (2 if data[0] == 10 else 1)
    if not len(parts) + 1 <= len(data) <= longest:
        raise Unread(f"a message of command {data[0]} has {len(parts) + 1} bytes, and this one {len(data)}")
    if len(data) > len(parts) + 1:
        parts = [*parts, "v"]
    fields = dict(zip(parts, data[1:]))
    for place, part in enumerate(parts, start=1):
        if fields[part] > LIMITS.get(part, 255):
            raise Unread(f"byte {place} of command {data[0]} is {fields[part]}, above {LIMITS[part]}")
    return fields


def message_of(data):
    """What DATA say, by names: `command`, and what the command has of `matrix`, `level`, `destination`, `source` (`None` if it is
    parked), `device`, `number`, `size`, `operation`, `salvo`, `status`, `details`, `index` and `validity`. Raises `Unread` where
    they are no message, or a page."""
    if not data or data[0] not in LAYOUTS:
        raise Unread(f"no message has command {data[0]}" if data else "no bytes at all")
    raw = fields_of(LAYOUTS[data[0]], data)
    told = {"command": data[0]} | {part: raw[part] for part in raw if part in PLAIN}
    if "ml" in raw:
        told |= {"matrix": raw["ml"] >> 4, "level": raw["ml"] & 15}
    if "m" in raw:
        told |= {"matrix": raw["m"], "level": raw["l"]}
    if "mu" in raw:
        told["destination"] = (raw["mu"] >> 4 & 7) * 128 + raw["d"]
        told |= {name: (raw["mu"] & 7) * 128 + raw[part] for name, part in (("source", "s"), ("device", "v")) if part in raw}
    told |= {name: raw[high] * 256 + raw[low] for name, high, low in WIDE if high in raw}
    if told.get("source") == (EXT_PARKED if "sh" in raw else PARKED):
        told["source"] = None
    return told


def data_of(message):
    """The one spelling of a message that `message_of` reads, for any fields in their ranges: a destination is 0 to 1023 and a source 0
    to 1022 where they have ten bits. Raises `Unread` where one isn't."""
    layout = LAYOUTS[message["command"]].split()
    raw = dict(message)
    if "source" in raw and raw["source"] is None:
        raw["source"] = EXT_PARKED if "sh" in layout else PARKED
    elif raw.get("source") == (EXT_PARKED if "sh" in layout else PARKED):
        raise Unread(f"source {raw['source']} says 'parked'")
    if "ml" in layout:
        raw["ml"] = within(raw, "matrix", 15) << 4 | within(raw, "level", 15)
    if "m" in layout:
        raw |= {"m": raw["matrix"], "l": raw["level"]}
    if "mu" in layout:
        low = "source" if "s" in layout else "device"
        second = within(raw, low, 1023) if "s" in layout or "v" in layout else 0
        raw["mu"] = within(raw, "destination", 1023) // 128 << 4 | second // 128
        raw |= {"d": raw["destination"] % 128, "s": second % 128, "v": second % 128}
    for name, high, lower in WIDE:
        if high in layout:
            raw[high], raw[lower] = divmod(within(raw, name, 65535), 256)
    return bytes([message["command"], *(within(raw, part, LIMITS.get(part, 255)) for part in layout)])


def within(fields, name, most):
    """The field of this name, a number from 0 to `most`. Raises `Unread` where it isn't."""
    value = fields.get(name)
    if type(value) is not int or not 0 <= value <= most:
        raise Unread(f"{name} is {value}, and not 0 to {most}")
    return value


def dump_of(data):
    """A page of a dump: its matrix, its level, its first destination, and what each carries, `None` for parked. Raises `Unread`."""
    if len(data) < 5 or len(data) != 5 + 2 * data[2] or not data[2]:
        raise Unread(f"a page of a dump has 5 bytes and 2 for each of at least one destination, and this one {len(data)}")
    sources = [data[k] * 256 + data[k + 1] for k in range(5, len(data), 2)]
    return data[1] >> 4, data[1] & 15, data[3] * 256 + data[4], [None if it == PARKED else it for it in sources]


def frame_of(data):
    """The frame of DATA."""
    counted = bytes([*data, len(data)])
    body = counted + bytes([-sum(counted) % 256])
    return bytes([DLE, STX]) + body.replace(bytes([DLE]), bytes([DLE, DLE])) + bytes([DLE, ETX])


def judged(body):
    """A whole frame's body: good with its DATA, or bad with the reason."""
    if not 3 <= len(body) <= 257:
        return "bad", f"its body has {number_of(len(body), 'byte', 'bytes')}, and a body has 3 to 257"
    if body[-2] != len(body) - 2:
        return "bad", f"its length byte says {body[-2]}, and it has {number_of(len(body) - 2, 'byte', 'bytes')} of DATA"
    if sum(body) % 256:
        return "bad", f"its check byte is {body[-1]:02X}, and {-sum(body[:-1]) % 256:02X} is right"
    return "good", bytes(body[:-2])


class Stream:
    """The bytes that one side of a session sends, in whatever pieces, read as items."""

    def __init__(self):
        self.body = None
        self.dle = False

    def feed(self, piece):
        """What ends in this piece, in order, as pairs of a kind and what belongs to it; then what it leaves open."""
        found = []
        for byte in piece:
            if byte == DLE and not self.dle:
                self.dle = True
            elif self.body is None:
                self.outside(byte, found)
            else:
                self.inside(byte, found)
        if self.body is not None:
            found.append(("cut", f"{number_of(len(self.body), 'byte', 'bytes')} of its body so far"))
        elif self.dle:
            found.append(("half", ""))
        return found

    def outside(self, byte, found):
        """One byte outside a frame, or the second of a pair there."""
        if self.dle and byte in (STX, ACK, NAK):
            self.dle = False
            if byte == STX:
                self.body = bytearray()
            else:
                found.append(("ack" if byte == ACK else "nak", ""))
            return
        noise = bytes([DLE] if byte == DLE else [DLE, byte] if self.dle else [byte])
        self.dle = byte == DLE
        if found and found[-1][0] == "noise":
            noise = found.pop()[1] + noise
        found.append(("noise", noise))

    def inside(self, byte, found):
        """One byte inside a frame, or the second of a pair there."""
        if not self.dle or byte == DLE:
            self.body.append(byte)
        elif byte == ETX:
            found.append(judged(self.body))
            self.body = None
        else:
            why = "another frame begins in it" if byte == STX else f"10 {byte:02X} stands in it"
            found.append(("abandoned", f"{number_of(len(self.body), 'byte', 'bytes')} of its body, and then {why}"))
            self.body = bytearray() if byte == STX else None
        self.dle = False


def packet_of(raw):
    """A packet of TSL UMD V5.0 as its screen and its displays, or the first rule that it breaks."""
    if len(raw) > MOST_PACKET:
        raise Unread(f"{len(raw)} bytes, and a packet has at most {MOST_PACKET}")
    if len(raw) < 6:
        raise Unread(f"{number_of(len(raw), 'byte', 'bytes')}, and a packet has at least 6")
    word = lambda place: raw[place] + raw[place + 1] * 256
    if word(0) != len(raw) - 2:
        raise Unread(f"it counts {word(0)} bytes, and {len(raw) - 2} follow")
    if raw[2] or raw[3]:
        raise Unread(f"its version is {raw[2]} and its flags are {raw[3]}, and both must be 0")
    displays, place = [], 6
    while place < len(raw):
        if place + 6 > len(raw) or place + 6 + word(place + 4) > len(raw):
            raise Unread(f"the display at byte {place} is cut")
        index, control, text = word(place), word(place + 2), raw[place + 6:place + 6 + word(place + 4)]
        if control >> 8:
            raise Unread(f"display {index} has reserved bits")
        if any(not 32 <= byte <= 126 for byte in text):
            raise Unread(f"the text of display {index} isn't ASCII")
        lamps = (control & 3, control >> 2 & 3, control >> 4 & 3)
        displays.append((index, (text.decode("ascii"), lamps, control >> 6 & 3)))
        place += 6 + len(text)
    return word(4), displays
