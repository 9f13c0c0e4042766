"""The house of the examples, served by the built program on this machine alone, with a crew that works in its studios."""
import asyncio
import pathlib
import re
import shutil
import socket
import tempfile

from wire import data_of, frame_of

from soft_panel.plant import HOME, PlantFile

ROOT = pathlib.Path(__file__).resolve().parent.parent.parent
HOUSE = ROOT / "examples/house.toml"
PROGRAM = ROOT / "crates/plantctl/out/plantctl"
CUT_SECONDS = 4
# What the crew connects at the start, by panel: level (matrix, level), then destinations with their sources.
SETTINGS = {
    7: {(0, 0): dict(zip(range(36, 52), (4, 24, 25, 5, 12, 60, 62, 3, 1, 26, 27, 40, 42, 13, 0, 46)))},
    2: {(1, 0): {**dict(zip(range(16, 24), range(1, 9))), 0: 1, 29: 2, 28: 16}},
    4: {(2, 0): {**dict(zip(range(8, 16), (1, 2, 3, 4, 5, 7, 8, 9))), 0: 1, 17: 2}},
}
# Studio A's vision: program bus, preview and its cameras. It cuts from one to the next.
VISION, PROGRAM_BUS, PREVIEW, CAMERAS = 2, 0, 29, (1, 2, 3, 4, 5, 6)


def free_port(wanted, kind):
    """This port if nothing is bound to it on this machine, or another one."""
    for port in (wanted, 0):
        with socket.socket(socket.AF_INET, kind) as one:
            if kind == socket.SOCK_STREAM:
                one.setsockopt(socket.SOL_SOCKET, socket.SO_REUSEADDR, 1)
            try:
                one.bind((HOME, port))
                return one.getsockname()[1]
            except OSError:
                continue
    raise OSError("no port is free")


def on_this_machine(text, wall):
    """The plant file of the house, with the addresses of this machine and ports that are free."""
    text = re.sub(r'^listen = .*$', f'listen = "{HOME}"', text, flags=re.MULTILINE)
    text = re.sub(r'^display = .*$', f'display = "{HOME}:{wall}"', text, flags=re.MULTILINE)
    return re.sub(r"^port = ([0-9]+)$", lambda it: f"port = {free_port(int(it[1]), socket.SOCK_STREAM)}", text, flags=re.MULTILINE)


class Demo:
    """The program on the house, in a folder of its own under the temporary one."""

    def __init__(self, wall):
        self.wall = free_port(wall, socket.SOCK_DGRAM)
        self.folder = pathlib.Path(tempfile.mkdtemp(prefix="plantctl-demo-"))
        self.text = on_this_machine(HOUSE.read_text(), self.wall)
        self.path = self.folder / "house.toml"
        self.path.write_text(self.text)
        self.plant = PlantFile(self.text)
        self.run = None

    async def serve(self):
        """Runs the program until it ends, and answers what it wrote."""
        self.run = await asyncio.create_subprocess_exec(
            PROGRAM, "serve", "house.toml", "day", cwd=self.folder, stdin=asyncio.subprocess.DEVNULL,
            stdout=asyncio.subprocess.PIPE, stderr=asyncio.subprocess.STDOUT, start_new_session=True)
        return (await self.run.communicate())[0].decode(errors="replace").strip()

    async def work(self):
        """The crew: each panel comes, connects what it watches, and studio A's vision cuts from camera to camera."""
        await asyncio.gather(*(self.panel(number) for number in SETTINGS))

    async def panel(self, number):
        """One panel of the crew. It comes again if the program ends its session."""
        while True:
            try:
                reader, writer = await asyncio.open_connection(HOME, self.plant.panels[number][1])
                heard = asyncio.ensure_future(reader.read())
                for (matrix, level), rows in SETTINGS[number].items():
                    for dest, source in rows.items():
                        writer.write(connect(matrix, level, dest, source))
                while not heard.done():
                    await asyncio.wait([heard], timeout=CUT_SECONDS)
                    if number == VISION:
                        self.cut(writer)
            except OSError:
                pass
            await asyncio.sleep(0.2)

    def cut(self, writer):
        """The next camera on the program bus, and on preview the one behind it."""
        self.shot = getattr(self, "shot", 0) + 1
        for dest, ahead in ((PROGRAM_BUS, 0), (PREVIEW, 1)):
            writer.write(connect(1, 0, dest, CAMERAS[(self.shot + ahead) % len(CAMERAS)]))

    def end(self):
        """Ends the program and takes the folder away."""
        if self.run and self.run.returncode is None:
            self.run.kill()
        shutil.rmtree(self.folder, ignore_errors=True)


def connect(matrix, level, dest, source):
    """The frame of a connect."""
    return frame_of(data_of({"command": 2, "matrix": matrix, "level": level, "destination": dest, "source": source}))
