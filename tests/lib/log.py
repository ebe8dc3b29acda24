"""The log of an image, read without the program: intact records, the head, the live records, and what they commit.

    log.py show IMAGE                    prints what `xn_show IMAGE log` has to print
    log.py ends IMAGE                    prints the sectors of the tail and of the next record, as xfs_logprint tells them
    log.py change IMAGE COPY NUMBER      writes a copy with bytes of its live records changed by chance, by that number
"""

import random
import shutil
import sys

from xfs_image import SECTOR, crc32c

MAGIC = 0xFEEDBABE
BLOCK = 4096
START, COMMIT, CONTINUE, WAS_CONTINUED = 1, 2, 4, 8
FOREIGN, MALFORMED = 1, 2


def big(data, at, width):
    return int.from_bytes(data[at : at + width], "big")


def little(data, at, width):
    return int.from_bytes(data[at : at + width], "little")


class Log:
    """The ring of an image, its intact records by sector, and the sectors that begin with the magic."""

    def __init__(self, path):
        with open(path, "rb") as image:
            super_block = image.read(SECTOR)
            start, blocks = big(super_block, 48, 8), big(super_block, 96, 4)
            ag_blocks, ag_log = big(super_block, 84, 4), super_block[124]
            self.first = ((start >> ag_log) * ag_blocks + (start & ((1 << ag_log) - 1))) * 8
            self.uuid = super_block[32:48]
            self.sectors = 8 * blocks
            image.seek(self.first * SECTOR)
            self.ring = image.read(self.sectors * SECTOR)
        self.marks = [at for at in range(self.sectors) if big(self.ring, at * SECTOR, 4) == MAGIC]
        records = (Record(self, at) for at in self.marks)
        self.records = {record.sector: record for record in records if record.is_intact}

    def round(self, sector, count):
        # So many sectors from one on, round the ring.
        front = self.ring[sector * SECTOR : (sector + count) * SECTOR]
        return front + self.ring[: count * SECTOR - len(front)]

    def run_to(self, record):
        # The run from the record's tail to it, or none.
        at = self.records.get(record.tail & 0xFFFFFFFF)
        if at is None or at.lsn != record.tail:
            return None
        run = [at]
        while run[-1].lsn < record.lsn:
            following = self.records.get(run[-1].after)
            if following is None or following.lsn <= run[-1].lsn:
                return None
            run.append(following)
        return run if run[-1] is record else None

    def head(self):
        # The head, and the live records.
        for record in sorted(self.records.values(), key=lambda record: -record.lsn):
            if record.is_unmount:
                return record, []
            run = self.run_to(record)
            if run:
                return record, run
        return None, []


class Record:
    """What begins at a sector with the magic."""

    def __init__(self, log, sector):
        header = log.round(sector, 1)
        self.sector = sector
        self.cycle, self.length = big(header, 4, 4), big(header, 12, 4)
        self.lsn, self.tail, self.count = big(header, 16, 8), big(header, 24, 8), big(header, 40, 4)
        self.sectors = 1 + (self.length + SECTOR - 1) // SECTOR
        self.is_intact = self.has_fields(header, log) and self.has_body(header, log)
        self.after = (sector + self.sectors) % log.sectors

    def has_fields(self, header, log):
        return (
            1 <= self.cycle <= 4_000_000_000
            and big(header, 8, 4) == 2
            and 1 <= self.length <= 32_768
            and self.sectors <= log.sectors
            and self.lsn == self.cycle << 32 | self.sector
            and big(header, 300, 4) == 1
            and header[304:320] in (log.uuid, bytes(16))
            and big(header, 320, 4) == 32_768
        )

    def has_body(self, header, log):
        stamped = log.round(self.sector, self.sectors)[SECTOR:]
        body = bytearray(stamped)
        for at in range(self.sectors - 1):
            stamp = self.cycle + (self.sector + 1 + at >= log.sectors)
            if big(stamped, at * SECTOR, 4) != stamp:
                return False
            body[at * SECTOR : at * SECTOR + 4] = header[44 + 4 * at : 48 + 4 * at]
        self.operations = list(self.read_operations(bytes(body[: self.length])))
        if None in self.operations:
            return False
        self.is_unmount = len(self.operations) == 1 and self.operations[0].is_unmount
        checksum = little(header, 32, 4)
        if checksum == 0 and self.is_unmount:
            return True
        covered = header[:32] + bytes(4) + header[36:328] + stamped[: self.length]
        return checksum == crc32c(covered)

    def read_operations(self, body):
        at = 0
        for number in range(self.count):
            if at + 12 > len(body) or at + 12 + big(body, at + 4, 4) > len(body):
                yield None
                return
            yield Operation(self.lsn, number, body[at:])
            at += 12 + big(body, at + 4, 4)


class Operation:
    def __init__(self, lsn, number, data):
        self.place = lsn, number
        self.tid, self.client, self.flags = big(data, 0, 4), data[8], data[9]
        self.data = data[12 : 12 + big(data, 4, 4)]
        self.is_unmount = self.client == 0xAA and self.flags & 32 != 0


def show_ring(log):
    head, live = log.head()
    if head is None:
        return ["no record"]
    used = sum(record.sectors for record in live) if live else head.sectors
    cycle = head.cycle + (head.sector + head.sectors >= log.sectors)
    lines = [f"head {head.cycle} next {cycle} {head.after} free {log.sectors - used} marks {len(log.marks)}"]
    lines += [f"record {r.sector} {r.cycle} {r.tail} {len(r.operations)}" for r in live]
    return lines


def ends(log):
    head, live = log.head()
    print(live[0].sector if live else head.after, head.after)


def change(path, copy, number):
    chance = random.Random(number)
    log = Log(path)
    _, live = log.head()
    shutil.copyfile(path, copy)
    with open(copy, "r+b") as image:
        for _ in range(chance.choice([1, 1, 1, 2, 5])):
            record = chance.choice(live)
            sector = (record.sector + chance.choice([0, 0, chance.randrange(record.sectors)])) % log.sectors
            place = (log.first + sector) * SECTOR + chance.choice([chance.randrange(48), chance.randrange(SECTOR)])
            image.seek(place)
            byte = image.read(1)[0]
            image.seek(place)
            image.write(bytes([byte ^ 1 << chance.randrange(8)]))


if __name__ == "__main__":
    match sys.argv[1:]:
        case ["show", path]:
            print("\n".join(show_ring(Log(path))))
        case ["ends", path]:
            ends(Log(path))
        case ["change", path, copy, number]:
            change(path, copy, int(number))
