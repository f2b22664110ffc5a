"""A disk behind a socket of NBD, which at a power cut loses any part of what was written since its last flush."""

import random
import socket
import struct
import threading

# A file system doesn't survive a part of its superblock, so a sector is as large as its blocks.
SECTOR_BYTES = 4096
# The messages of NBD that a client as QEMU sends, and the answers to them.
GREETING = b"NBDMAGICIHAVEOPT" + struct.pack(">H", 3)
REPLY, GO, ACKNOWLEDGED, ABOUT, NOT_KNOWN = 0x3E889045565A9, 7, 1, 3, 2**31 + 1
READ, WRITE, END, FLUSH = range(4)
HAS_FLUSH = 5


class Disk(threading.Thread):
    """Serves one client. `seen` is called after each request, and may ask for `after_a_cut`."""

    def __init__(self, path, content, seen):
        super().__init__(daemon=True)
        self.kept, self.now, self.pending, self.seen = bytearray(content), bytearray(content), [], seen
        self.door = socket.socket(socket.AF_UNIX)
        self.door.bind(str(path))
        self.door.listen(1)

    def run(self):
        client, _ = self.door.accept()
        self.door.close()
        with client, client.makefile("rwb") as stream:
            try:
                self.greet(stream)
                while self.answer(stream):
                    self.seen(self)
            except (ConnectionError, struct.error):
                pass  # The client was killed.

    def greet(self, stream):
        stream.write(GREETING)
        stream.flush()
        stream.read(4)
        while True:
            _, option, count = struct.unpack(">8sII", stream.read(16))
            stream.read(count)
            answers = [(ABOUT, struct.pack(">HQH", 0, len(self.now), HAS_FLUSH)), (ACKNOWLEDGED, b"")] if option == GO else [(NOT_KNOWN, b"")]
            for kind, text in answers:
                stream.write(struct.pack(">QIII", REPLY, option, kind, len(text)) + text)
            stream.flush()
            if option == GO:
                return

    def answer(self, stream):
        _, _, kind, handle, at, count = struct.unpack(">IHHQQI", stream.read(28))
        read = b""
        if kind == END:
            return False
        if kind == WRITE:
            bytes_written = stream.read(count)
            self.now[at:at + count] = bytes_written
            self.pending.append((at, bytes_written))
        elif kind == READ:
            read = bytes(self.now[at:at + count])
        elif kind == FLUSH:
            for place, old in self.pending:
                self.kept[place:place + len(old)] = old
            self.pending.clear()
        stream.write(struct.pack(">IIQ", 0x67446698, 0, handle) + read)
        stream.flush()
        return True

    def after_a_cut(self):
        """What the disk has if the power goes now: each of its sectors up to any of the pending writes to it, or none of them."""
        content, lost, odds = bytearray(self.kept), set(), random.choice((0.1, 0.5, 0.9))
        for at, written in self.pending:
            for place in range(at, at + len(written), SECTOR_BYTES):
                if place in lost or random.random() < odds:
                    lost.add(place)
                else:
                    content[place:place + SECTOR_BYTES] = written[place - at:place - at + SECTOR_BYTES]
        return content
