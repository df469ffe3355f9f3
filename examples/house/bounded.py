"""What another end sends, within bounds: until a moment, and so many bytes of it."""
import io
import time


def left(end):
    """The seconds that are left until a moment of the monotonic clock."""
    seconds = end - time.monotonic()
    if seconds <= 0:
        raise TimeoutError("the time is over")
    return seconds


class Reader(io.RawIOBase):
    """What a connection sends; a byte behind the bounds, and a moment behind them, is an OSError."""

    def __init__(self, connection, end, most):
        self.connection, self.end, self.whole, self.most = connection, end, end, most

    def within(self, seconds):
        """What is read next is to come within so many seconds, too."""
        self.end = min(self.whole, time.monotonic() + seconds)

    def readable(self):
        return True

    def readinto(self, buffer):
        if self.most == 0:
            raise OSError("more bytes than are read here")
        self.connection.settimeout(left(self.end))
        count = self.connection.recv_into(memoryview(buffer)[: self.most])
        self.most -= count
        return count

    def makefile(self, _mode="rb"):
        """What http.client asks a socket for."""
        return io.BufferedReader(self)


class Lines(io.BufferedReader):
    """What a Reader reads, where each line has a time of its own, and each part of a body."""

    def __init__(self, reader, line, part):
        super().__init__(reader)
        self.line, self.part = line, part

    def readline(self, size=-1):
        self.raw.within(self.line)
        return super().readline(size)

    def read(self, size=-1):
        self.raw.within(self.part)
        return super().read(size)
