"""A client for the scripts of this folder: it starts `bluesky replay`, sends calls as frames of a recording, and reads each reply before the next call."""
import struct
import subprocess

MAGIC = b"SKYREC1\n"
ROOT = struct.pack(">QQ", 1, 1)
CREATE, WRITE, LOOKUP, READ = 8, 7, 3, 6


class Stopped(Exception):
    """The program gave no whole frame more."""


def opaque(data):
    return struct.pack(">I", len(data)) + data + bytes(-len(data) % 4)


def call(xid, procedure, arguments):
    """A call of NFS version 3 by user 1000, as one record of one fragment (docs/FORMATS.md, section 2)."""
    caller = struct.pack(">5I", 0, 0, 1000, 1000, 0)
    message = struct.pack(">6I", xid, 0, 2, 100003, 3, procedure) + struct.pack(">I", 1) + opaque(caller) + bytes(8) + arguments
    return struct.pack(">I", 0x80000000 | len(message)) + message


class Run:
    """A run of the program over a journal and a cloud. `epoch` and `changes` are what its opening found."""

    def __init__(self, program, journal, cloud):
        words = [program, "replay", "--journal", journal, "--cloud", cloud]
        self.process = subprocess.Popen(words, stdin=subprocess.PIPE, stdout=subprocess.PIPE, stderr=subprocess.DEVNULL)
        self.xid = 0
        self.send(MAGIC)
        if self.take(8) != MAGIC:
            raise Stopped
        self.epoch, self.changes, _ = struct.unpack(">QQI", self.frame(19))
        self.send(struct.pack(">BII", 1, 0, 0))

    def send(self, data):
        try:
            self.process.stdin.write(data)
            self.process.stdin.flush()
        except (BrokenPipeError, ValueError):
            raise Stopped

    def take(self, count):
        data = self.process.stdout.read(count)
        if len(data) < count:
            raise Stopped
        return data

    def frame(self, wanted):
        kind, _, length = struct.unpack(">BII", self.take(9))
        payload = self.take(length)
        if kind != wanted:
            raise Stopped
        return payload

    def ask(self, procedure, arguments):
        """The status and the results of a call."""
        self.xid += 1
        record = call(self.xid, procedure, arguments)
        self.send(struct.pack(">BII", 2, 0, len(record)) + record)
        message = self.frame(2)[4:]
        xid, _, _, _, _, accepted, status = struct.unpack(">7I", message[:28])
        if xid != self.xid or accepted != 0:
            raise Stopped
        return status, message[28:]

    def create(self, name):
        """Makes a file in the root. Its handle, or the status."""
        attributes = struct.pack(">II", 1, 0o644) + bytes(20)
        status, results = self.ask(CREATE, opaque(ROOT) + opaque(name) + struct.pack(">I", 1) + attributes)
        return status, results[8:24]

    def write(self, handle, offset, data):
        """Writes to a file, to be stable at once (FILE_SYNC)."""
        return self.ask(WRITE, opaque(handle) + struct.pack(">QII", offset, len(data), 2) + opaque(data))[0]

    def look_up(self, name):
        status, results = self.ask(LOOKUP, opaque(ROOT) + opaque(name))
        return status, results[4:20]

    def read(self, handle, count):
        """The first bytes of a file."""
        status, results = self.ask(READ, opaque(handle) + struct.pack(">QI", 0, count))
        if status:
            return status, b""
        held = struct.unpack(">I", results[96:100])[0]
        return status, results[100:100 + held]

    def end(self):
        """Ends the recording, and gives the exit status."""
        self.send(struct.pack(">BII", 99, 0, 0))
        self.process.stdin.close()
        self.process.stdout.read()
        return self.process.wait()
