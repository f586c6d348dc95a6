"""State files, written from their format alone and not by the program: in both versions, and also of a machine with the
multiplexer.

    python3 checks/state_files.py FILE [version=N] [size=K] [tti1=PORT] [qty=PORT] [console=PORT] [autobit=1]

writes that of a session which has done nothing. With `qty` its machine has the multiplexer.
"""

import hashlib
import struct
import sys

# The registers of each unit in bus order, with what they begin with where that is not 0.
REGISTERS = {
    "DSK": "BUSY DONE STOP_IOE TIME=200 DA MA STAT WRITE",
    "MTA": "BUSY DONE STOP_IOE TIME=1000 CMD DRIVE MA WC STAT POS0 POS1 POS2 POS3 POS4 POS5 POS6 POS7",
    "LPT": "BUSY DONE STOP_IOE TIME=500 BUF POS",
    "PTR": "BUSY DONE STOP_IOE TIME=300 BUF POS",
    "PTP": "BUSY DONE STOP_IOE TIME=200 BUF POS",
    "CLK": "BUSY DONE SEL",
    "TTI": "BUSY DONE TIME=100 BUF",
    "TTO": "BUSY DONE TIME=100 BUF",
    "TTI1": "BUSY DONE TIME=100 BUF",
    "TTO1": "BUSY DONE TIME=100 BUF",
    "QTY": " ".join(["BUSY DONE TIME=100", *(f"RX{n}" for n in range(64)), *(f"TX{n}" for n in range(64))]),
}
PLACES = list(REGISTERS)


def first_registers(unit):
    """The registers of a unit by their names, in order."""
    parts = [it.partition("=") for it in REGISTERS[unit].split()]
    return {name: int(value or 0) for name, _, value in parts}


class State:
    """A session that has done nothing; what is changed in it is then saved so."""

    def __init__(self, size=32, has_multiplexer=False):
        self.size, self.accumulators, self.carry, self.pc = size, [0, 0, 0, 0], 0, 0
        self.on = self.hold = self.mask = self.switches = self.stop_dev = self.autobit = 0
        self.time = self.keys_taken = 0
        self.words = [0] * (1024 * size)
        self.units = {name: first_registers(name) for name in PLACES if name != "QTY" or has_multiplexer}
        # Which unit, which of its drives, and after how many instructions.
        self.events = [("TTI", 0, 100), ("TTI1", 0, 100)]
        # The unit, the drive, whether it is only read, the name and the bytes.
        self.files = []
        self.tti1 = self.qty = self.console = 0
        # Address, count and actions; count, text and actions; the bytes printed last; time and byte.
        self.breaks, self.expects, self.tail, self.sends = [], [], b"", []

    def put(self, first, words):
        """Puts words into memory from an address on."""
        self.words[first:first + len(words)] = words

    def body(self, version):
        """All bytes but the digest, in pieces."""
        yield b"NOVASTAT" + struct.pack(">HB4H", version, self.size, *self.accumulators)
        yield struct.pack(">BHBBHHB", self.carry, self.pc, self.on, self.hold, self.mask, self.switches, self.stop_dev)
        if version == 2:
            yield bytes([self.autobit])
        yield struct.pack(">QQ", self.time, self.keys_taken)
        yield struct.pack(f">{len(self.words)}H", *self.words)
        yield bytes([len(self.units)])
        for name, registers in self.units.items():
            yield struct.pack(f">BB{len(registers)}I", PLACES.index(name), len(registers), *registers.values())
        yield struct.pack(">H", len(self.events))
        for name, drive, remaining in self.events:
            yield struct.pack(">BBI", PLACES.index(name), drive, remaining)
        yield bytes([len(self.files)])
        for name, drive, read_only, path, content in self.files:
            yield struct.pack(">BBBH", PLACES.index(name), drive, read_only, len(path)) + path.encode()
            yield struct.pack(">Q", len(content)) + hashlib.sha256(content).digest()
        yield struct.pack(">H", self.tti1)
        if version == 2:
            yield struct.pack(">HH", self.qty, self.console)
        yield from self.watched()

    def watched(self):
        """What a run watches, in pieces."""
        yield struct.pack(">H", len(self.breaks))
        for address, count, actions in self.breaks:
            yield struct.pack(">HIH", address, count, len(actions)) + actions
        yield bytes([len(self.expects)])
        for count, text, actions in self.expects:
            yield struct.pack(">IB", count, len(text)) + text + struct.pack(">H", len(actions)) + actions
        yield bytes([len(self.tail)]) + self.tail
        yield struct.pack(">H", len(self.sends))
        for time, byte in self.sends:
            yield struct.pack(">QB", time, byte)

    def bytes(self, version=2):
        body = b"".join(self.body(version))
        return body + hashlib.sha256(body).digest()


def main():
    path, *words = sys.argv[1:]
    given = {name: int(value or 0) for name, _, value in (it.partition("=") for it in words)}
    state = State(given.get("size", 32), "qty" in given)
    for name in ("tti1", "qty", "console", "autobit"):
        setattr(state, name, given.get(name, 0))
    with open(path, "wb") as file:
        file.write(state.bytes(given.get("version", 2)))


if __name__ == "__main__":
    main()
