"""Between pages and plant: what a page may ask, what came of it in words, and what all pages are told."""
import asyncio
import collections
import time

from soft_panel.controller import SALVOS, Controller
from soft_panel.plant import NARROW_DESTINATIONS, NARROW_SOURCES
from soft_panel.wall import Wall

MOST_EXCHANGES = 50
# What changed is gathered for so long before pages are told, so that a flood of notices is few messages.
GATHER_SECONDS = 0.015
PROGRESS_SECONDS = 0.2
# A person's requests that wait for their answers, at most.
MOST_ASKED = 128
# What a page may ask, with what belongs to it.
REQUESTS = {
    "take": ("level", "destination", "source"), "protect": ("level", "destination"), "lift": ("level", "destination"),
    "store": ("salvo", "level", "destination", "source"), "look": ("salvo",), "go": ("salvo",), "clear": ("salvo",),
}
NO_TIE = "no tie-line is free for this panel, or it is out of range"


class NotAsked(Exception):
    """Why a page's request isn't sent to the controller, in words."""


class Desk:
    """One panel with its pages and its wall."""

    def __init__(self, plant, panel):
        self.plant = plant
        self.controller = Controller(plant, panel, self)
        self.wall = Wall(plant, self)
        self.wall_fault = None
        self.pages = set()
        self.exchanges = collections.deque(maxlen=MOST_EXCHANGES)
        self.count, self.is_up, self.progress, self.told_progress = 0, False, (0, 0), 0.0
        self.news = collections.defaultdict(list)

    # ---- what pages are told

    def tell(self, kind, row):
        """Notes one row of news, which goes out with what else comes in the same moment."""
        if not self.news:
            asyncio.get_running_loop().call_later(GATHER_SECONDS, self.flush)
        self.news[kind].append(row)

    def flush(self):
        """Tells all pages what is new, if anything is."""
        if not self.news:
            return
        message = [{"kind": kind, "rows": rows} for kind, rows in self.news.items()]
        self.news.clear()
        for page in list(self.pages):
            page.send(message)

    def carried(self, level, dest, source):
        self.tell("carries", [level, dest, source])

    def protected(self, level, dest, device):
        self.tell("protects", [level, dest, device])

    def salvo(self, number):
        self.tell("salvos", [number, self.controller.salvos[number]])

    def displays(self, rows):
        for row in rows:
            self.tell("wall", row)

    def link(self, is_up):
        """The controller is there, or it is away."""
        if is_up != self.is_up:
            self.is_up = is_up
            self.tell("link", is_up)

    def asking(self, wanted, left):
        """So many requests for what stands are still to be answered. Pages are told now and then, and at the end."""
        now = time.monotonic()
        if (wanted, left) != self.progress and (left == 0 or now > self.told_progress + PROGRESS_SECONDS):
            self.progress, self.told_progress = (wanted, left), now
            self.tell("asking", [wanted, left])

    def exchange(self, rows):
        """A line of the strip: what was sent and received together, each in hexadecimal and in words."""
        self.count += 1
        row = {"number": self.count, "time": time.strftime("%H:%M:%S"), "rows": rows}
        self.exchanges.append(row)
        self.tell("exchanges", row)

    def all_that_stands(self):
        """What a page is told when it opens."""
        plant, link = self.plant, self.controller
        yield {
            "kind": "plant", "title": plant.title, "panel": link.panel, "device": link.device, "master": link.master,
            "panels": [[device, master] for device, _, master in plant.panels], "displays": plant.displays,
            "levels": [level.shown() for level in plant.levels], "wallFault": self.wall_fault, "wallPort": plant.wall_port,
            "narrow": [NARROW_DESTINATIONS, NARROW_SOURCES], "salvos": SALVOS,
        }
        yield {"kind": "link", "rows": [self.is_up]}
        yield {"kind": "asking", "rows": [self.progress]}
        for number, row in enumerate(link.carries):
            yield {"kind": "level", "rows": [[number, row]]}
        yield {"kind": "protects", "rows": [[level, dest, it] for level, owned in enumerate(link.protects) for dest, it in owned.items()]}
        yield {"kind": "salvos", "rows": [[number, it] for number, it in enumerate(link.salvos) if it]}
        yield {"kind": "wall", "rows": self.wall.rows()}
        yield {"kind": "exchanges", "rows": list(self.exchanges)}

    # ---- what pages ask

    async def meet(self, page):
        """One page from its opening to its end."""
        self.flush()
        page.send(list(self.all_that_stands()))
        self.pages.add(page)
        try:
            while True:
                request = await page.receive()
                try:
                    self.request(page, request)
                except NotAsked as why:
                    self.said(page, False, str(why))
                await page.writer.drain()
        finally:
            self.pages.discard(page)

    def said(self, page, is_good, words):
        """Tells a page what came of its request, if it is still open."""
        if page in self.pages:
            page.send([{"kind": "said", "rows": [[is_good, words]]}])

    def request(self, page, request):
        """Sends a page's request to the controller. Raises `NotAsked` where it has no form, or nobody to hear it."""
        keys = REQUESTS.get(request.get("do")) if isinstance(request, dict) and isinstance(request.get("do"), str) else None
        if keys is None or request.keys() != {"do", *keys}:
            raise NotAsked("a panel can't ask that")
        if not self.is_up or self.controller.writer is None:
            raise NotAsked("the controller is away: nothing was sent")
        if self.controller.asked > MOST_ASKED:
            raise NotAsked("too many requests wait for an answer: nothing was sent")
        if "salvo" in keys:
            self.number(request, "salvo", SALVOS)
        if "level" in keys:
            level = self.plant.levels[self.number(request, "level", len(self.plant.levels))]
            dest = self.number(request, "destination", level.destinations)
            if "source" in keys and request["source"] is not None:
                self.number(request, "source", level.sources)
            self.at_place(page, request, level, dest)
        else:
            self.of_salvo(page, request["do"], request["salvo"])

    @staticmethod
    def number(request, key, count):
        """A number below a count. Raises `NotAsked` where it is none."""
        value = request[key]
        if type(value) is not int or not 0 <= value < count:
            raise NotAsked(f"there is no such {key}")
        return value

    def at_place(self, page, request, level, dest):
        """A request about a destination."""
        do, source = request["do"], request.get("source")
        at = {"matrix": level.matrix, "level": level.level, "destination": dest}
        wide = dest >= NARROW_DESTINATIONS or (source or 0) >= NARROW_SOURCES
        name = level.destination_names[dest]
        if do == "take":
            takes = {"command": 130 if wide else 2, **at, "source": source}
            self.controller.ask(takes, *self.then_taken(page, level, at, source, wide))
        elif wide:
            raise NotAsked("protects and salvos reach destinations 0 to 1023 and sources 0 to 1022 alone")
        elif do == "store":
            self.store(page, {"command": 120, **at, "source": source, "salvo": request["salvo"]}, name)
        else:
            command = 12 if do == "protect" else 14
            asked = {"command": command, **at, "device": self.controller.device}
            self.controller.ask(asked, lambda told: self.guarded(page, do, name, told))

    def then_taken(self, page, level, at, source, wide):
        """What follows the answer of a connect: the words for the page. Of a refusal the owner is asked first, if there may be one."""
        name = level.destination_names[at["destination"]]
        wanted = "parked" if source is None else level.source_names[source]
        rows = []

        def owned(told):
            owner = told["device"] if told and told.get("details") else None
            if owner is not None and owner != self.controller.device:
                why = f"{self.plant.owner(owner)} protects {name}"
            elif source in level.remote:
                why = f"{NO_TIE}. {wanted} comes by one from matrix {level.remote[source]}"
            else:
                why = NO_TIE
            self.said(page, False, f"Refused: {why}. What stood still stands.")

        def taken(told):
            if told and told["command"] in (4, 132):
                self.said(page, True, f"{name} is parked" if source is None else f"{name} carries {wanted}")
            elif told is None or wide and at["destination"] >= NARROW_DESTINATIONS:
                self.said(page, False, f"Refused: {NO_TIE}. What stood still stands.")
            else:
                self.controller.ask({"command": 10, **at}, owned, rows)
                return True
            return False
        return taken, rows

    def guarded(self, page, do, name, told):
        """What came of a protect or of a lift."""
        done = told and told["command"] == (13 if do == "protect" else 15)
        owner = self.plant.owner(told["device"]) if told and told["details"] else None
        if done:
            self.said(page, True, f"{name} is protected by {owner}" if owner else f"{name} isn't protected any more")
        elif owner:
            self.said(page, False, f"Refused: {owner} protects {name}. Only it or a master can lift that.")
        else:
            self.said(page, False, f"Refused: nobody protects {name}")

    def store(self, page, message, name):
        """Stores a change in a salvo, and looks at the salvo behind it: a full one answers a store by ACK alone."""
        salvo, rows = message["salvo"], []

        def stored(told):
            self.said(page, bool(told), f"Salvo {salvo} has {name}" if told else f"Refused: salvo {salvo} is full. It has what it had.")
        self.controller.ask(message, stored, rows)
        self.controller.look(salvo, None, None, self.controller.send)

    def of_salvo(self, page, do, salvo):
        """Looks at a salvo, takes it or clears it."""
        if do == "look":
            def seen(entries):
                self.said(page, True, f"Salvo {salvo} has {len(entries)} changes" if len(entries) != 1 else f"Salvo {salvo} has one change")
            self.controller.look(salvo, [], seen, self.controller.send)
            return

        def answered(told):
            words = {
                0: (True, f"Salvo {salvo} was taken: all its changes were made at once"),
                1: (True, f"Salvo {salvo} was cleared"),
                2: (False, f"Salvo {salvo} is empty"),
                3: (False, f"Refused: another device protects a destination of salvo {salvo}. Nothing changed, and it is kept."),
                4: (False, f"Refused: salvo {salvo} needs more tie-lines than this panel may use. Nothing changed, and it is kept."),
            }
            self.said(page, *(words[told["status"]] if told else (False, f"Salvo {salvo} wasn't answered")))
        self.controller.ask({"command": 121, "operation": 0 if do == "go" else 1, "salvo": salvo}, answered)
