"""The link to the controller: one panel's session, what stands as it was told, and who asked for what."""
import asyncio
import collections

from wire import DUMP, Stream, Unread, data_of, dump_of, frame_of, message_of
from words import item_words, spaced

from soft_panel.plant import NARROW_DESTINATIONS

AGAIN_SECONDS = 1
# So many salvos there are, and each has entries of at most this index.
SALVOS, MOST_INDEX = 128, 255
# So many requests for what stands may be on the way at once: a person's go between them, and wait for no more than these. More are sent
# when half are answered, many in one piece: one by one each would wait for the other side's delayed acknowledgement.
WINDOW = 1024
# By how many destinations a page of a dump goes on.
PAGE = 64
SPELLED = {"ack": b"\x10\x06", "nak": b"\x10\x15"}
# What answers each command. A notice looks like an answer, but never comes between a frame's ACK and its answer.
ANSWERS = {1: (3, 131), 2: (4, 3, 131), 10: (11,), 12: (13, 11), 14: (15, 11), 21: (DUMP,), 120: (122,), 121: (123,), 124: (125,),
           129: (131,), 130: (132, 131)}


class Ask:
    """One request: its message, what is done with its answer (`None` if ACK was all), and its lines for the strip, if it has any."""

    def __init__(self, message, done, rows, pages=1):
        self.message, self.done, self.rows, self.pages = message, done, rows, pages
        self.answer = None

    def takes(self, command):
        """Whether a message of this command is its answer, or a page of it."""
        return self.pages > 0 and command in ANSWERS[self.message["command"]]


class Controller:
    """A panel's session with the controller, which is dialled again each second for as long as it is away."""

    def __init__(self, plant, panel, tell):
        self.plant, self.panel, self.tell = plant, panel, tell
        self.device, self.port, self.master = plant.panels[panel]
        # What each destination carries: a source, -1 if it is parked, `None` while nothing was told.
        self.carries = [[None] * level.destinations for level in plant.levels]
        self.protects = [{} for _ in plant.levels]
        self.salvos = [[] for _ in range(SALVOS)]
        self.writer = None
        self.forget()

    def forget(self):
        """A new session: nothing is on the way."""
        self.sent, self.behind, self.current = collections.deque(), collections.deque(), None
        self.stream, self.wanted = Stream(), 0

    # ---- the session

    async def run(self):
        """Dials, listens until the session ends, and dials again, without an end."""
        while True:
            try:
                reader, self.writer = await asyncio.wait_for(asyncio.open_connection(self.plant.listen, self.port), 5)
                self.tell.link(True)
                self.ask_all()
                while piece := await reader.read(65536):
                    for kind, it in self.stream.feed(piece):
                        self.item(kind, it)
                    self.pump()
            except (OSError, asyncio.TimeoutError):
                pass
            if self.writer:
                self.writer.close()
            self.writer = None
            waiting = [it for it in (self.current, *self.sent) if it]
            self.forget()
            self.tell.link(False)
            for ask in waiting:
                if ask.rows:
                    self.tell.exchange([*ask.rows, ("", "", "the controller went away before it answered")])
            await asyncio.sleep(AGAIN_SECONDS)

    def ask_all(self):
        """Asks for all that stands: what destinations carry, who protects them, and what salvos have."""
        for level in self.plant.levels:
            at = {"matrix": level.matrix, "level": level.level}
            if level.is_wide():
                self.behind.extend(Ask({"command": 129, **at, "destination": it}, None, None) for it in range(level.destinations))
            else:
                self.behind.append(Ask({"command": 21, **at}, None, None, -(-level.destinations // PAGE)))
        for level in self.plant.levels:
            at = {"command": 10, "matrix": level.matrix, "level": level.level}
            self.behind.extend(Ask({**at, "destination": it}, None, None) for it in range(min(level.destinations, NARROW_DESTINATIONS)))
        for salvo in range(SALVOS):
            self.look(salvo, None, None, self.behind.append)
        self.wanted = len(self.behind)
        self.pump()

    def pump(self):
        """Sends requests for what stands if there is room for many of them on the way."""
        if self.behind and len(self.sent) <= WINDOW // 2:
            asks = [self.behind.popleft() for _ in range(min(len(self.behind), WINDOW - len(self.sent)))]
            self.sent.extend(asks)
            self.writer.write(b"".join(frame_of(data_of(ask.message)) for ask in asks))
        left = len(self.behind) + len(self.sent) + (self.current is not None)
        self.tell.asking(self.wanted, left if self.wanted else 0)
        if not left:
            self.wanted = 0

    def send(self, ask):
        """Sends a request now, whatever waits."""
        data = data_of(ask.message)
        frame = frame_of(data)
        if ask.rows is not None:
            ask.rows.append((">", spaced(frame), self.words(">", "good", data)))
        self.sent.append(ask)
        self.writer.write(frame)

    def ask(self, message, done, rows=None):
        """A person's request. What came of it goes to the strip, unless `rows` go on in another request."""
        self.send(Ask(message, done, [] if rows is None else rows))

    @property
    def asked(self):
        """How many requests of people wait for their answers."""
        return sum(ask.rows is not None or ask.done is not None for ask in self.sent)

    def words(self, way, kind, it):
        return item_words(self.plant.words, way, f"panel {self.panel}", kind, it)

    # ---- what comes

    def item(self, kind, it):
        """One thing that the controller sent."""
        if kind in ("cut", "half"):
            return
        if kind in SPELLED:
            self.finish()
            self.current = self.sent.popleft() if self.sent else None
            if self.current and self.current.rows is not None:
                self.current.rows.append(self.row(kind, it))
            if kind == "nak":
                self.finish()
        elif kind == "good":
            self.message(it)
        else:
            self.tell.exchange([self.row(kind, it)])
            if kind == "bad":
                self.writer.write(SPELLED["nak"])

    def row(self, kind, it):
        """One thing that the controller sent, as the strip tells it: its bytes, as far as they were kept, and its words."""
        raw = frame_of(it) if kind == "good" else SPELLED.get(kind, it if isinstance(it, bytes) else b"")
        return "<", spaced(raw), self.words("<", kind, it)

    def message(self, data):
        """A message: the answer that is awaited, or a notice."""
        try:
            told = None if data[:1] == bytes([DUMP]) else message_of(data)
            self.note_page(*dump_of(data)) if told is None else self.note(told)
        except Unread:
            told = {"command": -1}
        ask = self.current
        if ask and ask.takes(data[0]):
            if ask.rows is not None:
                ask.rows.append(self.row("good", data))
            ask.pages -= 1
            ask.answer = told
            if not ask.pages:
                self.finish()
        else:
            self.tell.exchange([self.row("good", data)])

    def finish(self):
        """The request that is being answered has its whole answer."""
        ask, self.current = self.current, None
        if ask is None:
            return
        held = ask.done(ask.answer) if ask.done else False
        if ask.rows and not held:
            self.tell.exchange(ask.rows)

    # ---- what stands

    def note(self, told):
        """Keeps what a message tells of the plant."""
        command, number = told["command"], self.plant.numbers.get((told.get("matrix"), told.get("level")))
        dest = told.get("destination", -1)
        if command in (3, 4, 131, 132) and number is not None and dest < len(self.carries[number]):
            source = -1 if told["source"] is None else told["source"]
            if self.carries[number][dest] != source:
                self.carries[number][dest] = source
                self.tell.carried(number, dest, source)
        elif command in (11, 13, 15) and number is not None and dest < len(self.carries[number]):
            owner = told["device"] if told["details"] else None
            self.protects[number].pop(dest, None)
            if owner is not None:
                self.protects[number][dest] = owner
            self.tell.protected(number, dest, owner)
        elif command == 123 and told["status"] in (0, 1, 2):
            self.salvos[told["salvo"]] = []
            self.tell.salvo(told["salvo"])

    def note_page(self, matrix, level, first, sources):
        """Keeps what a page of a dump tells."""
        for place, source in enumerate(sources, start=first):
            self.note({"command": 3, "matrix": matrix, "level": level, "destination": place, "source": source})

    def look(self, salvo, rows, done, put):
        """Asks for the entries of a salvo, one after the other, and keeps them when the last is told. `put` sends a request."""
        entries = []

        def entry(told):
            if told and told["command"] == 125 and told["validity"] != 2:
                number = self.plant.numbers.get((told["matrix"], told["level"]))
                if number is not None:
                    entries.append([number, told["destination"], -1 if told["source"] is None else told["source"]])
                if told["validity"] == 0 and told["index"] < MOST_INDEX:
                    put(Ask({"command": 124, "salvo": salvo, "index": told["index"] + 1}, entry, rows))
                    return True
            self.salvos[salvo] = entries
            self.tell.salvo(salvo)
            if done:
                done(entries)
            return False
        put(Ask({"command": 124, "salvo": salvo, "index": 0}, entry, rows))
