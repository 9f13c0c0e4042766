"""The receiver of display packets: what each display shows last."""
import asyncio

from wire import Unread, packet_of
from words import packet_words, spaced


class Wall(asyncio.DatagramProtocol):
    """Takes packets at a UDP port. What isn't one is passed over, as a multiviewer does."""

    def __init__(self, plant, tell):
        self.plant, self.tell = plant, tell
        self.shown = {}

    async def open(self, host, port):
        """Listens. Raises `OSError` where the port is taken."""
        await asyncio.get_running_loop().create_datagram_endpoint(lambda: self, local_addr=(host, port))

    def datagram_received(self, data, address):
        try:
            screen, displays = packet_of(data)
        except Unread:
            return
        changed = [(screen, index, value) for index, value in displays if self.shown.get((screen, index)) != value]
        self.shown |= {(screen, index): value for index, value in displays}
        # A refresh tells everything again: only news is worth a line.
        if changed:
            self.tell.displays([self.row(*it) for it in changed])
            self.tell.exchange([("*", spaced(data), words) for words in packet_words(self.plant.words, data)])

    @staticmethod
    def row(screen, index, value):
        """A display as the page is told of it: its right lamp, that of its text and its left one, 0 to 3."""
        text, lamps, brightness = value
        return [screen, index, text, *lamps, brightness]

    def rows(self):
        """All displays that were told so far."""
        return [self.row(screen, index, value) for (screen, index), value in self.shown.items()]
