"""A way to a port of this machine that can be cut."""

import asyncio
import contextlib


class Relay:
    """Passes bytes on, and cuts all connections once `there` bytes have gone to the port, or `back` bytes have come from it
    (None: no end), wherever in a line, a frame or a body that is. A `deaf` one passes nothing more then, either way, but cuts
    nothing: what was answered to the last bytes is lost."""

    def __init__(self, port):
        self.port, self.there, self.back, self.deaf = port, None, None, False
        self.passed = b""  # what has gone to the port, of all connections
        self._ends = set()

    async def __aenter__(self):
        self._server = await asyncio.start_server(self._serve, "127.0.0.1", 0)
        self.at = self._server.sockets[0].getsockname()[1]
        return self

    async def __aexit__(self, *_):
        self._server.close()
        self.cut()

    def cut(self):
        for it in self._ends:
            it.transport.abort()

    async def _serve(self, reader, writer):
        ends = {writer}
        self._ends.add(writer)
        with contextlib.suppress(OSError):
            far, to = await asyncio.open_connection("127.0.0.1", self.port)
            ends.add(to)
            self._ends.add(to)
            if not writer.is_closing():  # it may have been cut meanwhile
                await asyncio.gather(self._pass(reader, to, "there"), self._pass(far, writer, "back"))
        self._ends -= ends
        for it in ends:
            it.transport.abort()

    async def _pass(self, reader, writer, way):
        with contextlib.suppress(ConnectionError):
            while data := await reader.read(65536):
                left = getattr(self, way)
                if left is not None:
                    data = data[:left]
                    setattr(self, way, left - len(data))
                if way == "there":
                    self.passed += data
                if way == "there" or not (self.deaf and self.there == 0):
                    writer.write(data)
                    await writer.drain()
                if left is not None and len(data) == left and not self.deaf:
                    await asyncio.sleep(0.002)  # what was passed on is read
                    self.cut()
                    return
        writer.close()
