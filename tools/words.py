"""What messages, items of a stream and packets of displays say in words, with the names of a plant file."""
import re

from wire import DUMP, EXT_PARKED, Unread, dump_of, message_of, number_of, packet_of

# Each command: whether it asks or reports, and its words.
MESSAGES = {
    1: ("ask", "what does {at} carry?"),
    2: ("ask", "{let}"),
    3: ("report", "{at} {carries}"),
    4: ("report", "{at} {carries} now"),
    10: ("ask", "who protects {at}?"),
    11: ("report", "{at} {owned}"),
    12: ("ask", "protect {at} for this panel"),
    13: ("report", "{at} {owned} now"),
    14: ("ask", "lift the protect of {at}"),
    15: ("report", "{at} {owned} now"),
    21: ("ask", "what does each destination of {level} carry?"),
    100: ("ask", "what are the names of all sources of {level}, in {width} bytes each?"),
    101: ("ask", "what is the name of source {number} of {level}, in {width} bytes?"),
    102: ("ask", "what are the names of all destinations of matrix {matrix}, in {width} bytes each?"),
    103: ("ask", "what is the name of destination {number} of matrix {matrix}, in {width} bytes?"),
    120: ("ask", "store in salvo {salvo} that {at} is to {carry}"),
    121: ("ask", "{operation} salvo {salvo}"),
    122: ("report", "salvo {salvo} has stored that {at} is to {carry}"),
    123: ("report", "salvo {salvo} {status}"),
    124: ("ask", "what is entry {index} of salvo {salvo}?"),
    125: ("report", "{entry}"),
    129: ("ask", "what does {at} carry?"),
    130: ("ask", "{let}"),
    131: ("report", "{at} {carries}"),
    132: ("report", "{at} {carries} now"),
}
WIDTHS = (4, 8, 12)
OPERATIONS = ("take", "clear")
STATUSES = (
    "was taken: all its changes were made at once, and it is empty now",
    "was cleared",
    "is empty, so there is nothing to take or to clear",
    "was refused, since another device protects one of its destinations: nothing changed, and it is kept",
    "was refused, since it needs more tie-lines than the panel may use: nothing changed, and it is kept",
)
PAGES = {DUMP: "dump", 106: "source", 107: "destination"}

# What begins the words of a message, by who sent it (`>` the panel, `<` the plant, none for bare bytes) and what it is.
HEADS = {
    (">", "ask"): "{who} asked: ",
    (">", "report"): "{who} sent a report, which is answered by ACK alone: ",
    ("<", "ask"): "{who} was sent a request, which no plant sends: ",
    ("<", "report"): "{who} was told: ",
    ("", "ask"): "asked: ",
    ("", "report"): "told: ",
}
# ACK, NAK, noise, abandoned frames and bad frames, by who sent them.
ITEMS = {
    "ack": {">": "{who} sent ACK, which is answered by nothing", "<": "{who} was sent ACK: its frame was good", "": "ACK"},
    "nak": {
        ">": "{who} sent NAK: it asks for the last message frame again",
        "<": "{who} was sent NAK: its frame was bad, and had no effect",
        "": "NAK",
    },
    "noise": dict.fromkeys((">", "<", ""), "noise, which is passed over: {it}"),
    "abandoned": dict.fromkeys((">", "<", ""), "an abandoned frame, which isn't answered: {it}"),
    "bad": {">": "{who} sent a bad frame, which is answered by NAK: {it}", "<": "a bad frame: {it}", "": "a bad frame: {it}"},
    "cut": dict.fromkeys((">", "<"), "a frame is cut: {it}; the next bytes of this line's panel go on with it")
    | {"": "a frame is cut: {it}"},
    "half": dict.fromkeys((">", "<", ""), "the last byte is 10: what it begins is cut"),
}

LAMPS = ("off", "red", "green", "amber")
# What the right lamp, that of the text and the left lamp say together. A plant sends no others.
TALLIES = {
    (0, 0, 0): "all lamps off",
    (1, 1, 0): "on air (right lamp and text red)",
    (0, 2, 2): "on preview (left lamp and text green)",
    (1, 3, 2): "on air and on preview (right lamp red, left lamp green, text amber)",
}


def spaced(raw):
    """Bytes in hexadecimal, with spaces between them."""
    return raw.hex(" ").upper()


def span(first, last):
    """The numbers from the first to the last."""
    return f"{first}" if first == last else f"{first} to {last}"


def runs(values):
    """Neighbours that are equal, as (index of the first, index of the last, value)."""
    found = []
    for index, value in enumerate(values):
        if found and found[-1][2] == value:
            found[-1] = (found[-1][0], index, value)
        else:
            found.append((index, index, value))
    return found


# ---- the plant

class Plant:
    """The names that a plant file gives; none at all if there is no file."""

    def __init__(self, document=None):
        self.levels, self.displays = {}, {}
        self.panels = len(self.entries(document, "panel", ()))
        for entry in self.entries(document, "level", ("matrix", "level", "sources", "destinations")):
            for kind in ("source", "destination"):
                names = entry.get(kind + "_names")
                key = (kind, entry["matrix"], entry["level"])
                self.levels[key] = (entry[kind + "s"], names if isinstance(names, list) else [])
        for entry in self.entries(document, "display", ("screen", "index", "matrix", "destination")):
            self.displays[entry["screen"], entry["index"]] = (entry["matrix"], entry["destination"])

    @staticmethod
    def entries(document, section, keys):
        """The entries of a section that have these keys, all numbers."""
        entries = (document or {}).get(section)
        tables = [it for it in entries if isinstance(it, dict)] if isinstance(entries, list) else []
        return [it for it in tables if all(type(it.get(key)) is int for key in keys)]

    def name(self, kind, matrix, level, number):
        """The name of a source or a destination in brackets, behind a space; nothing if there is no plant file."""
        if not self.levels:
            return ""
        many, names = self.levels.get((kind, matrix, level), (0, []))
        if number >= many:
            return " (not in the plant)"
        return f" ({names[number] if number < len(names) else kind[0].upper() + str(number)})"

    def find(self, kind, matrix, level, name):
        """The words of what has this name: with its number, or that there is none; the name alone if there is no plant file."""
        if not self.levels:
            return f"{kind} {name}"
        many, names = self.levels.get((kind, matrix, level), (0, []))
        for number in range(min(many, EXT_PARKED + 1)):
            if self.name(kind, matrix, level, number) == f" ({name})":
                return f"{kind} {number} ({name})"
        return f"{kind} {name} (not in the plant: the script is refused)"

    def refuses(self, text):
        """Why the program refuses a line of a script that has a form: its panel or its screen isn't there."""
        panel = re.match(r"(?:>|take|poll|leave) ([0-9]{1,5})(?![0-9])", text)
        if self.panels and panel and int(panel.group(1)) >= self.panels:
            return [f"panel {panel.group(1)} isn't in the plant, whose panels are {span(0, self.panels - 1)}: the script is refused"]
        screen = re.fullmatch(r"(?:show|refresh) ([0-9]{1,5})", text)
        if self.levels and screen and int(screen.group(1)) not in {screen for screen, _ in self.displays}:
            return [f"no display is on screen {screen.group(1)}: the script is refused"]
        return []

    def watched(self, screen, index):
        """The name of the destination that a display watches, in the same way."""
        if not self.displays:
            return ""
        watch = self.displays.get((screen, index))
        return self.name("destination", watch[0], 0, watch[1]) if watch else " (not in the plant)"


# ---- messages

def words_of(plant, template, it):
    """The words of a message with these fields."""
    matrix, level, dest, source = (it.get(key, 0) for key in ("matrix", "level", "destination", "source"))
    parked = source is None
    at = f"matrix {matrix} level {level} destination {dest}{plant.name('destination', matrix, level, dest)}"
    carry = "be parked" if parked else f"carry source {source}{plant.name('source', matrix, level, source)}"
    salvo, index, validity = (it.get(key, 0) for key in ("salvo", "index", "validity"))
    end = "more follow" if validity == 0 else "it is the last"
    return template.format(
        at=at, carry=carry, let=f"park {at}" if parked else f"let {at} {carry}",
        carries="is parked" if parked else carry.replace("carry", "carries", 1),
        owned=f"is protected by device {it.get('device')}" if it.get("details") else "isn't protected",
        matrix=matrix, level=f"matrix {matrix} level {level}", width=WIDTHS[it.get("size", 0)],
        number=it.get("number", 0), salvo=salvo, index=index,
        operation=OPERATIONS[it.get("operation", 0)], status=STATUSES[it.get("status", 0)],
        entry=f"salvo {salvo} has no entry {index}" if validity == 2
        else f"entry {index} of salvo {salvo} is that {at} is to {carry}; {end}",
    )


def dump_words(plant, data):
    """The words of a page of a dump."""
    matrix, level, first, sources = dump_of(data)
    told = []
    for low, high, source in runs(sources):
        many = low < high
        verb = ("are parked" if many else "is parked") if source is None else "carry" if many else "carries"
        name = "" if many else plant.name("destination", matrix, level, first + low)
        what = "" if source is None else f" source {source}{plant.name('source', matrix, level, source)}"
        told.append(f"{span(first + low, first + high)}{name} {verb}{what}")
    many = number_of(len(sources), "destination", "destinations")
    return f"of matrix {matrix} level {level}, a page of {many}: {', '.join(told)}"


def name_words(kind, data):
    """The words of a page of names."""
    width = WIDTHS[data[2]] if len(data) > 2 and data[2] <= 2 else 0
    if len(data) < 6 or not width or not data[5] or len(data) != 6 + width * data[5]:
        raise Unread("a page of names whose length isn't that of its names")
    first = data[3] * 256 + data[4]
    names = [data[k:k + width].decode("ascii", "backslashreplace").rstrip(" ") for k in range(6, len(data), width)]
    where = f"matrix {data[1] >> 4}" + (f" level {data[1] & 15}" if kind == "source" else "")
    numbers = span(first, first + len(names) - 1)
    return f"of {where}, the {f'names of {kind}s' if len(names) > 1 else f'name of {kind}'} {numbers}: {', '.join(names)}"


def message_words(plant, data):
    """What DATA say, as whether they ask or report, and the words; or why they say nothing."""
    if not data:
        raise Unread("no bytes at all")
    if data[0] in MESSAGES:
        kind, template = MESSAGES[data[0]]
        return kind, words_of(plant, template, message_of(data))
    if data[0] == DUMP:
        return "report", dump_words(plant, data)
    if data[0] in PAGES:
        return "report", name_words(PAGES[data[0]], data)
    raise Unread(f"no message has command {data[0]}")


# ---- items and packets

def item_words(plant, way, who, kind, it):
    """The words of one thing that a stream gives."""
    if kind != "good":
        return ITEMS[kind][way].format(who=who, it=spaced(it) if isinstance(it, bytes) else it)
    try:
        sort, words = message_words(plant, it)
    except Unread as why:
        return f"a good frame that says nothing, so it is answered by ACK alone: {why}"
    return HEADS[way, sort].format(who=who) + words


def packet_words(plant, raw):
    """The words of a packet: one line for each display, or for neighbours of which all is equal."""
    screen, displays = packet_of(raw)
    told = []
    for low, high, (text, lamps, brightness) in runs([value for _, value in displays]):
        indexes = [index for index, _ in displays[low:high + 1]]
        which = f"display {indexes[0]}{plant.watched(screen, indexes[0])}"
        if low < high:
            rows = runs([index - k for k, index in enumerate(indexes)])
            which = f"displays {', '.join(span(indexes[a], indexes[b]) for a, b, _ in rows)}"
        shows = f"{'show' if low < high else 'shows'} {text or 'no text'}"
        tally = TALLIES.get(lamps) or "right lamp {}, text {}, left lamp {}".format(*(LAMPS[lamp] for lamp in lamps))
        told.append(f"screen {screen} {which} {shows}, {tally}, brightness {brightness}")
    return told or [f"screen {screen}: a packet without a display"]
