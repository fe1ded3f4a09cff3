#!/usr/bin/env python3
"""carrier.py PORT put STREAM frames|lines FIFO: each frame, or line, that is written to the FIFO becomes an entry of the stream.
carrier.py PORT get STREAM FIFO: writes all entries of the stream, from the first one on, to whoever reads the FIFO, and then each that comes.

The streams are those of a Redis server on this machine. Where it doesn't answer, it is asked again, so an entry may stand there twice."""
import os
import socket
import sys
import time


class Server:
    """The server, as it is spoken to over one connection behind the other."""

    def __init__(self, port):
        self.port, self.connection, self.lines = port, None, None

    def ask(self, *words):
        """What the server answers, asked again until it does."""
        while True:
            try:
                if self.connection is None:
                    self.connection = socket.create_connection(("127.0.0.1", self.port))
                    self.lines = self.connection.makefile("rb")
                self.connection.sendall(b"*%d\r\n" % len(words) + b"".join(b"$%d\r\n%s\r\n" % (len(word), word) for word in words))
                return self.answer()
            except OSError:
                self.connection = None
                time.sleep(0.05)

    def answer(self):
        """One value of the protocol."""
        line = self.lines.readline()
        if not line or line[:1] == b"-":
            raise ConnectionError(line)
        if line[:1] in b"+:":
            return line[1:-2]
        many = int(line[1:-2])
        if many < 0:
            return None
        if line[:1] == b"*":
            return [self.answer() for _ in range(many)]
        text = self.lines.read(many + 2)
        if len(text) < many + 2:
            raise ConnectionError(text)
        return text[:-2]


def cut(kind, read):
    """The whole frames, or lines, at the front, and the rest."""
    if kind == "lines":
        *whole, rest = read.split(b"\n")
        return [line + b"\n" for line in whole], rest
    whole, at = [], 0
    while len(read) - at >= 8:
        end = at + 40 + int.from_bytes(read[at + 4 : at + 8], "little")
        if len(read) < end:
            break
        whole.append(read[at:end])
        at = end
    return whole, read[at:]


def put(server, stream, kind, path):
    """From a FIFO into a stream. Each connection begins with a whole frame, or line."""
    while True:
        with open(path, "rb", buffering=0) as fifo:
            rest = b""
            while read := fifo.read(65536):
                whole, rest = cut(kind, rest + read)
                for entry in whole:
                    server.ask(b"XADD", stream, b"*", b"e", entry)


def get(server, stream, path):
    """From a stream into a FIFO. Each connection begins with the first entry."""
    while True:
        last = b"0"
        try:
            with open(path, "wb", buffering=0) as fifo:
                while True:
                    for _, entries in server.ask(b"XREAD", b"COUNT", b"500", b"BLOCK", b"1000", b"STREAMS", stream, last) or []:
                        for last, (_, entry) in entries:
                            while entry:
                                entry = entry[fifo.write(entry) :]
        except BrokenPipeError:
            time.sleep(0.05)


def main():
    port, way, stream, *rest = sys.argv[1:]
    {"put": put, "get": get}[way](Server(int(port)), stream.encode(), *rest)


if __name__ == "__main__":
    main()
