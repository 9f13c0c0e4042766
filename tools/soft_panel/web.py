"""A web server for one page on this machine, and the WebSocket behind it (RFC 6455), over the standard library alone.

Whatever comes is held to narrow forms: a head of at most 8 KiB within five seconds, one Host that is this server, for the WebSocket one
Origin that is, and messages of at most 4 KiB. All else ends the connection.
"""
import asyncio
import base64
import binascii
import hashlib
import json
import re

MOST_HEAD = 8192
MOST_MESSAGE = 4096
MOST_CONNECTIONS = 64
# A page that doesn't read is let go when so much waits for it.
MOST_WAITING = 16 << 20
SECONDS = 5
ACCEPT = "258EAFA5-E914-47DA-95CA-C5AB0DC85B11"
REQUEST = re.compile(r"([A-Z]{1,16}) (/[!-~]{0,255}) HTTP/1\.1")
FIELD = re.compile(r"([!#$%&'*+.^_`|~0-9A-Za-z-]{1,64}):[ \t]*([ -~]{0,2048}?)[ \t]*")
REASONS = {200: "OK", 400: "Bad Request", 403: "Forbidden", 404: "Not Found", 405: "Method Not Allowed", 421: "Misdirected Request",
           426: "Upgrade Required", 503: "Service Unavailable"}
CONTINUED, TEXT, CLOSE, PING, PONG = 0, 1, 8, 9, 10


class Refused(Exception):
    """A request that isn't served, with its status; or a WebSocket that is closed, with its code."""

    def __init__(self, code):
        super().__init__(code)
        self.code = code


def request_of(head):
    """The method, the path and the fields of a head; a field that stands twice has both values, with a comma. Raises `Refused`."""
    lines = head.decode("latin-1").split("\r\n")
    first = REQUEST.fullmatch(lines[0])
    if not first:
        raise Refused(400)
    fields = {}
    for line in lines[1:]:
        field = FIELD.fullmatch(line)
        if not field:
            raise Refused(400)
        name = field.group(1).lower()
        fields[name] = f"{fields[name]}, {field.group(2)}" if name in fields else field.group(2)
    return first.group(1), first.group(2), fields


def key_of(fields):
    """What answers the key of a WebSocket's opening. Raises `Refused`."""
    key = fields.get("sec-websocket-key", "")
    try:
        whole = len(base64.b64decode(key, validate=True)) == 16
    except (binascii.Error, ValueError):
        whole = False
    names = [it.strip().lower() for it in fields.get("connection", "").split(",")]
    if fields.get("upgrade", "").lower() != "websocket" or "upgrade" not in names or fields.get("sec-websocket-version") != "13":
        raise Refused(426)
    if not whole:
        raise Refused(400)
    return base64.b64encode(hashlib.sha1((key + ACCEPT).encode()).digest()).decode()


class Page:
    """One open page: messages to it as JSON, and what it sends."""

    def __init__(self, reader, writer):
        self.reader, self.writer = reader, writer

    def send(self, message):
        """Sends what the page is told, a list or a record. A page that has long not read is let go."""
        self.frame(TEXT, json.dumps(message, separators=(",", ":")).encode())
        if self.writer.transport.get_write_buffer_size() > MOST_WAITING:
            self.writer.transport.abort()

    def frame(self, kind, body):
        size = len(body)
        head = bytes([size]) if size < 126 else b"\x7e" + size.to_bytes(2, "big") if size < 65536 else b"\x7f" + size.to_bytes(8, "big")
        self.writer.write(bytes([0x80 | kind]) + head + body)

    async def piece(self):
        """The next frame that is no ping or pong: whether a message ends with it, whether it goes on, and its bytes."""
        while True:
            first, second = await self.reader.readexactly(2)
            kind, size = first & 15, second & 127
            if first & 0x70 or not second & 0x80 or kind not in (CONTINUED, TEXT, CLOSE, PING, PONG):
                raise Refused(1003 if kind == 2 else 1002)
            if kind >= CLOSE and (size > 125 or not first & 0x80):
                raise Refused(1002)
            if size > 125:
                size = int.from_bytes(await self.reader.readexactly(2 if size == 126 else 8), "big")
            if size > MOST_MESSAGE:
                raise Refused(1009)
            mask = await self.reader.readexactly(4)
            body = bytes(byte ^ mask[place % 4] for place, byte in enumerate(await self.reader.readexactly(size)))
            if kind == CLOSE:
                raise Refused(1000)
            if kind == PING:
                self.frame(PONG, body)
            elif kind != PONG:
                return bool(first & 0x80), kind == CONTINUED, body

    async def receive(self):
        """The next message, a text as JSON. Raises `Refused` where it is none."""
        whole = b""
        ends, goes_on, body = await self.piece()
        if goes_on:
            raise Refused(1002)
        while True:
            whole += body
            if len(whole) > MOST_MESSAGE:
                raise Refused(1009)
            if ends:
                break
            ends, goes_on, body = await self.piece()
            if not goes_on:
                raise Refused(1002)
        try:
            return json.loads(whole.decode())
        except (ValueError, RecursionError) as why:
            raise Refused(1007) from why


class Web:
    """The server: the page at `/`, and at `/live` what `meet` does with each page that opens it."""

    def __init__(self, port, page, meet):
        self.port, self.page, self.meet = port, page, meet
        self.hosts = {f"127.0.0.1:{port}", f"localhost:{port}"} | ({"127.0.0.1", "localhost"} if port == 80 else set())
        self.open = 0

    async def listen(self):
        """Listens on this machine alone. Raises `OSError` where the port is taken."""
        return await asyncio.start_server(self.connection, "127.0.0.1", self.port, limit=MOST_HEAD)

    async def connection(self, reader, writer):
        """One connection, from its first byte to its end."""
        self.open += 1
        try:
            await self.answer(reader, writer)
            await asyncio.wait_for(writer.drain(), SECONDS)
        except (OSError, EOFError, asyncio.LimitOverrunError, asyncio.TimeoutError, asyncio.CancelledError):
            # Whoever is there goes, or the tool ends: either way the connection does.
            pass
        finally:
            self.open -= 1
            writer.close()

    async def answer(self, reader, writer):
        """Serves the page or opens a WebSocket; all else is refused by its status."""
        try:
            head = await asyncio.wait_for(reader.readuntil(b"\r\n\r\n"), SECONDS)
            method, path, fields = request_of(head[:-4])
            if fields.get("host") not in self.hosts:
                raise Refused(421)
            if self.open > MOST_CONNECTIONS:
                raise Refused(503)
            if method != "GET":
                raise Refused(405)
            if path == "/live":
                if fields.get("origin") not in {f"http://{it}" for it in self.hosts}:
                    raise Refused(403)
                await self.upgrade(reader, writer, key_of(fields))
            elif path == "/":
                self.reply(writer, 200, self.page, "text/html; charset=utf-8")
            else:
                raise Refused(404)
        except Refused as why:
            self.reply(writer, why.code, f"{why.code} {REASONS[why.code]}\n".encode(), "text/plain")

    def reply(self, writer, status, body, kind):
        """A whole answer, behind which the connection ends. The page may load nothing, and stand in no other page."""
        live = " ".join(f"ws://{host}" for host in sorted(self.hosts))
        rules = f"default-src 'none'; script-src 'unsafe-inline'; style-src 'unsafe-inline'; img-src data:; connect-src {live}"
        writer.write((f"HTTP/1.1 {status} {REASONS[status]}\r\nContent-Type: {kind}\r\nContent-Length: {len(body)}\r\n"
                      f"Content-Security-Policy: {rules}; frame-ancestors 'none'; base-uri 'none'; form-action 'none'\r\n"
                      "X-Content-Type-Options: nosniff\r\nReferrer-Policy: no-referrer\r\nCache-Control: no-store\r\n"
                      "Connection: close\r\n\r\n").encode() + body)

    async def upgrade(self, reader, writer, accept):
        """A WebSocket from its opening to its close."""
        writer.write(f"HTTP/1.1 101 Switching Protocols\r\nUpgrade: websocket\r\nConnection: Upgrade\r\nSec-WebSocket-Accept: {accept}\r\n\r\n".encode())
        page = Page(reader, writer)
        try:
            await self.meet(page)
        except Refused as why:
            page.frame(CLOSE, why.code.to_bytes(2, "big"))
