"""Magnetic tape in our program and in SIMH's dgnova: guest programs and images for checks/tape.

Both controllers have code 22, take the command and the drive with DOA, the
address with DOB and minus the count of words with DOC, and read and write images
in SIMH's format, so the same words run in both.
"""

import os
import random
import re
import struct
import subprocess
import sys
import time

# The command stands in front of the three bits of the drive.
READ, WRITE, WRITE_MARK = 0o0, 0o50, 0o60
# The bits of STAT, which are the same in both: a mark, the drive is ready. The end of the medium is 1000 in ours, and in
# dgnova it is 40, a bad tape.
AT_MARK, READY = 0o400, 0o1
OUR_END, THEIR_END = 0o1000, 0o40

# 50 has the command, 51 the address, 52 minus the count of words. 55 and 54 count the blocks from 0 on, and 56 takes STAT.
COMMAND, ADDRESS, COUNT, HIGH, LOW, STAT = 0o50, 0o51, 0o52, 0o55, 0o54, 0o56
BUFFER = 0o1000


def command_done(at):
    """Gives MTA the address, the count and the command in AC0, waits until it is done, and takes STAT into AC3: eight
    words that stand from the address `at` on."""
    return [
        0o024051,  # LDA 1,51
        0o066022,  # DOB 1,MTA
        0o024052,  # LDA 1,52
        0o067022,  # DOC 1,MTA
        0o061122,  # DOAS 0,MTA
        0o063622,  # SKPDN MTA
        at + 5,  # JMP .-1
        0o074422,  # DIA 3,MTA
    ]


# Reads blocks up to a mark or the end of the medium, and adds up their first words in AC2.
READ_THROUGH = [
    0o020050,  # LDA 0,50
    0o152400,  # SUB 2,2
    *command_done(0o102),
    0o024053,  # LDA 1,53
    0o167404,  # AND 3,1,SZR
    0o000123,  # JMP 123
    0o026051,  # LDA 1,@51
    0o133000,  # ADD 1,2
    0o010054,  # ISZ 54
    0o000102,  # JMP 102
    0o010055,  # ISZ 55
    0o000102,  # JMP 102
    0o054056,  # 123: STA 3,56
    0o063077,  # HALT
]

# Does one command.
DO_ONE = [
    0o020050,  # LDA 0,50
    *command_done(0o101),
    0o054056,  # STA 3,56
    0o063077,  # HALT
]


def deposits(words, first):
    return [f"DEPOSIT {first + place:o} {word:o}" for place, word in enumerate(words)]


def block(content):
    """A block as it stands in an image: all of ours have an even number of bytes."""
    length = struct.pack("<I", len(content))
    return length + content + length


MARK = struct.pack("<I", 0)


def bytes_of(words):
    return struct.pack(f">{len(words)}H", *words)


def examined(printed):
    """The values that were printed of places, in their order, as (name, value)."""
    return [(name, int(value, 8)) for name, value in re.findall(r"^(\w+):\s+([0-7]+)\s*$", printed, re.M)]


# The rate


def make_tape(path, blocks, size):
    """An image of so many blocks of so many bytes and a mark; the sum of their first words, and the last block."""
    chance = random.Random(1)
    total, last = 0, b""
    with open(path, "wb") as made:
        for _ in range(blocks):
            last = chance.randbytes(size)
            made.write(block(last))
            total += int.from_bytes(last[:2], "big")
        made.write(MARK)
    return total & 0o177777, last


def reading(tape, size, delay, start):
    """The commands that read a tape through; without the reading itself where not `start`."""
    result = deposits(READ_THROUGH, 0o100)
    result += deposits([READ, BUFFER, -(size // 2) & 0o177777, OUR_END | THEIR_END | AT_MARK, 0, 0], COMMAND)
    result += [delay, f"ATTACH MTA0 {tape}"]
    if start:
        result.append("GO 100")
    return result + ["EXAMINE AC2", f"EXAMINE {HIGH:o}", f"EXAMINE {LOW:o}", f"EXAMINE {STAT:o}",
                     f"EXAMINE {BUFFER + size // 2 - 1:o}", "DETACH MTA0"]


def rate(run, program, delay, tape, blocks, size, expected):
    """How long the reading takes, less the time of the same commands without it."""
    total, last = expected
    taken = {}
    for start in (False, True):
        before = time.perf_counter()
        printed = run(program, reading(tape, size, delay, start))
        taken[start] = time.perf_counter() - before
    values = [value for _, value in examined(printed)]
    wanted = [total, blocks >> 16, blocks & 0o177777, int.from_bytes(last[-2:], "big")]
    if len(values) != 5 or values[:3] + values[4:] != wanted or not values[3] & AT_MARK:
        sys.exit(f"{program} read another tape: {values}, and not {wanted}\n{printed[-600:]}")
    return max(taken[True] - taken[False], 1e-9)


# Interchange


def items_by_chance(seed):
    """Blocks of words, and marks, which are None: two files and a third that is empty."""
    chance = random.Random(seed)
    counts = [1, 2, 3, 255, 256, 257, chance.randrange(1, 1500), 4096]
    blocks = [[chance.randrange(0o200000) for _ in range(count)] for count in counts]
    return [*blocks[:4], None, *blocks[4:], None, None]


def image_of(items):
    return b"".join(MARK if words is None else block(bytes_of(words)) for words in items)


def one(command, count):
    """The commands that do one tape command, and then examine its STAT."""
    return [*deposits([command, BUFFER, -count & 0o177777], COMMAND), "GO 100", f"EXAMINE {STAT:o}"]


def writing(items, tape):
    """The commands that write an image, item by item, into a new file."""
    result = [*deposits(DO_ONE, 0o100), f"ATTACH -N MTA0 {tape}"]
    for words in items:
        if words is None:
            result += one(WRITE_MARK, 0)
        else:
            result += deposits(words, BUFFER) + one(WRITE, len(words))
    return result + ["DETACH MTA0"]


def listing(items, tape):
    """The commands that read an image, item by item and once more, and examine what came into memory."""
    result = [*deposits(DO_ONE, 0o100), f"ATTACH -R MTA0 {tape}"]
    for words in [*items, []]:
        result += one(READ, 4096)
        if words:
            result.append(f"EXAMINE {BUFFER:o}-{BUFFER + len(words) - 1:o}")
    return result + ["DETACH MTA0"]


def wrong_listing(items, end, printed):
    """What a listing says that is not in the image: the first such thing, or None. `end` is the bit for its end."""
    values = [value for _, value in examined(printed)]
    for number, words in enumerate([*items, []]):
        if not values:
            return f"item {number} was not read"
        stat = values.pop(0)
        kind = {0: "a block", AT_MARK: "a mark", end: "the end"}.get(stat & (AT_MARK | end), "both ends")
        wanted = "a mark" if words is None else "a block" if words else "the end"
        if kind != wanted or not stat & READY:
            return f"item {number} is {wanted}, and was read as {kind}, with STAT {stat:06o}"
        if words and values[:len(words)] != words:
            return f"the {len(words)} words of item {number} came into memory as others"
        del values[:len(words or [])]
    return None


def records_of(mtdump, path):
    """The lengths of the records, and marks as None, that mtdump prints of an image, and what it says at the end."""
    done = subprocess.run([mtdump, path], capture_output=True, text=True, timeout=60)
    found = re.findall(r"length = (\d+)|(end of (?:tape file|logical tape))", done.stdout)
    return [int(length) if length else None for length, _ in found], done.stdout


def written_by(name, run, program, items, path):
    """Writes an image; what is wrong with it, or None."""
    if os.path.exists(path):
        os.remove(path)
    run(program, writing(items, path))
    with open(path, "rb") as made:
        content = made.read()
    wanted = image_of(items)
    return None if content == wanted else f"{name} wrote {len(content)} bytes, and not the {len(wanted)} of the items"


def interchange(sides, mtdump, seed, folder):
    """Writes an image in each program and reads it in the other, and with mtdump: what is found wrong.

    A side is a name, what runs its program, the program, and its bit for the end of the medium.
    """
    items = items_by_chance(seed)
    wrong = []
    for name, run, program, _ in sides:
        path = os.path.join(folder, f"{name}.tap")
        wrong.append(written_by(name, run, program, items, path))
        for other, other_run, other_program, end in sides:
            if other != name:
                found = wrong_listing(items, end, other_run(other_program, listing(items, path)))
                wrong.append(found and f"{other}, reading what {name} wrote: {found}")
        records, printed = records_of(mtdump, path)
        if records != [None if words is None else 2 * len(words) for words in items]:
            wrong.append(f"mtdump, reading what {name} wrote: {records}\n{printed[-300:]}")
    return [found for found in wrong if found]
