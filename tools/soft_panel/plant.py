"""A plant file as the panel needs it: its levels with all names, its panels, displays and addresses."""
import tomllib

from words import Plant

HOME = "127.0.0.1"
WALL_PORT = 8901
EVERYWHERE = "0.0.0.0"
# The destinations that protects and salvos reach, and the sources of salvos.
NARROW_DESTINATIONS, NARROW_SOURCES = 1024, 1023


class BadPlant(Exception):
    """Why a plant file can't be worked with, in words."""


class Level:
    """A level of a matrix: how many sources and destinations it has, all by name."""

    def __init__(self, entry, names):
        self.matrix, self.level = entry["matrix"], entry["level"]
        self.sources, self.destinations = entry["sources"], entry["destinations"]
        self.source_names = names("source", self.sources)
        self.destination_names = names("destination", self.destinations)
        self.air, self.preview, self.remote = [], [], {}

    def is_wide(self):
        """Whether it is told by extended messages alone, and by no dump."""
        return self.sources > NARROW_SOURCES or self.destinations > NARROW_DESTINATIONS

    def shown(self):
        """What the page is told of it."""
        return {
            "matrix": self.matrix, "level": self.level, "sources": self.source_names, "destinations": self.destination_names,
            "air": self.air, "preview": self.preview, "remote": sorted(self.remote),
        }


class PlantFile:
    """What a plant file says. The program has checked it, or will: here only what is used is looked at."""

    def __init__(self, text):
        try:
            document = tomllib.loads(text)
            self.words = Plant(document)
            self.title = str(document.get("title", ""))
            self.levels = [self.level_of(entry) for entry in document["level"]]
            self.numbers = {(it.matrix, it.level): number for number, it in enumerate(self.levels)}
            self.panels = [(it["device"], it["port"], it.get("master") is True) for it in document["panel"]]
            self.displays = [(it["screen"], it["index"], it["matrix"], it["destination"]) for it in document.get("display", ())]
            self.mark(document)
            server = document.get("server", {})
            listen = server.get("listen", HOME)
            self.listen = HOME if listen == EVERYWHERE else listen
            host, _, port = server.get("display", f"{HOME}:{WALL_PORT}").rpartition(":")
            self.wall_host, self.wall_port = host, int(port)
        except (AttributeError, KeyError, TypeError, ValueError, RecursionError) as why:
            raise BadPlant(f"it is no plant file, as `plantctl check` says more exactly: {why!r}") from why

    def level_of(self, entry):
        """A level with the names that the program gives, `S5` and `D5` where the file gives none."""
        def names(kind, many):
            given = entry.get(f"{kind}_names", [])
            return [*given[:many], *(f"{kind[0].upper()}{number}" for number in range(len(given), many))]
        return Level(entry, names)

    def mark(self, document):
        """Notes what is on air, on preview and remote at its level."""
        for section in ("air", "preview"):
            for entry in document.get(section, ()):
                getattr(self.levels[self.numbers[entry["matrix"], 0]], section).append(entry["destination"])
        for entry in document.get("remote", ()):
            self.levels[self.numbers[entry["matrix"], entry["level"]]].remote[entry["source"]] = entry["from"]

    def owner(self, device):
        """The words of a device that owns a protect, with the panels that it stands for."""
        panels = [f"panel {number}" for number, it in enumerate(self.panels) if it[0] == device]
        return f"device {device}" + (f" ({', '.join(panels)})" if panels else "")
