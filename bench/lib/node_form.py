"""Gives the root of an image of mkfs.xfs many names, in node form.

    node_form.py IMAGE NAMES TOLD

It writes to TOLD what `xfsns list` is to tell of the root. The blocks lie side by side in the last group, where nothing
else is; the group goes on taking them for free.
"""

import struct
import sys

from xfs_image import BLOCK, SECTOR, change, checksum

FILE, DIRECTORY = 1, 2
HEADER = 64
# A leaf and a node have room for so many entries, and a free-index block for the bests of so many data blocks.
ENTRIES = 504
BESTS = 2016
LEAF_FILE_BLOCK = 8388608
FREE_FILE_BLOCK = 16777216
LEAF, NODE = 0x3DFF, 0x3EBE
# The first block of the group that is used. The group's headers and btrees end long before.
FIRST = 1024
META_UUID = 4
LONG_COUNTS = 0x10
ENDINGS = (b"", b".c", b".txt", b".jpeg", b"-small.png", b".tar.gz", b"~")


class Geometry:
    def __init__(self, path):
        with open(path, "rb") as image:
            sector = image.read(SECTOR)
        self.root = int.from_bytes(sector[56:64], "big")
        self.agblocks, self.agcount = struct.unpack_from(">II", sector, 84)
        self.agblklog = sector[124]
        incompat = int.from_bytes(sector[216:220], "big")
        self.uuid = sector[248:264] if incompat & META_UUID else sector[32:48]
        self.group = self.agcount - 1

    def block(self, index):
        # The number of the block with this index among those of the directory.
        return self.group << self.agblklog | FIRST + index

    def place(self, index):
        return self.group * self.agblocks + FIRST + index


def name_hash(name):
    h = 0
    for byte in name:
        h = byte ^ (h << 7 & 0xFFFFFFFF | h >> 25)
    return h


def name_of(number):
    # Names that neither come nor are hashed in order: an odd factor takes no two numbers below 2^32 to one.
    return b"%08x" % (number * 2654435761 % 2**32) + ENDINGS[number % len(ENDINGS)]


def entry_bytes(ino, name, kind, position):
    length = (12 + len(name) + 7) // 8 * 8
    front = struct.pack(">QB", ino, len(name)) + name + bytes([kind])
    return front.ljust(length - 2, b"\0") + struct.pack(">H", position)


class Directory:
    """The blocks of the directory: their bytes, but for place and checksum."""

    def __init__(self, geometry, entries):
        self.geometry = geometry
        self.leaf_entries, self.data, self.bests = [], [], []
        self.fill_data(entries)
        self.tree = self.make_tree()
        self.free = [self.free_index(at) for at in range(0, len(self.bests), BESTS)]

    def fill_data(self, entries):
        held = bytearray(HEADER)
        for ino, name, kind in entries:
            entry = entry_bytes(ino, name, kind, len(held))
            if len(held) + len(entry) > BLOCK:
                self.end_data(held)
                held = bytearray(HEADER)
                entry = entry_bytes(ino, name, kind, len(held))
            self.leaf_entries.append((name_hash(name), (BLOCK * len(self.data) + len(held)) // 8))
            held += entry
        self.end_data(held)

    def end_data(self, held):
        # What is left is one free region.
        at, left = len(held), BLOCK - len(held)
        if left:
            struct.pack_into(">HH", held, 48, at, left)
            held += struct.pack(">HH", 0xFFFF, left).ljust(left - 2, b"\0") + struct.pack(">H", at)
        held[0:4] = b"XDD3"
        self.own(held, 24)
        self.data.append(held)
        self.bests.append(left)

    def own(self, block, at):
        # The uuid, and behind it the owner.
        block[at : at + 24] = self.geometry.uuid + struct.pack(">Q", self.geometry.root)

    def make_tree(self):
        # The levels from the root down to the leaves; siblings are numbered one after the other.
        levels = [[(LEAF, 0, part) for part in parts(sorted(self.leaf_entries))]]
        while len(levels) == 1 or len(levels[0]) > 1:
            levels.insert(0, [(NODE, len(levels), part) for part in parts(self.children(levels))])
        self.number(levels)
        return [block for level in levels for block in level]

    @staticmethod
    def children(levels):
        # The greatest hash of each child, and its index within the level as yet.
        return [(part[-1][0], index) for index, (_, _, part) in enumerate(levels[0])]

    def number(self, levels):
        first = LEAF_FILE_BLOCK
        for at, level in enumerate(levels):
            below = first + len(level)
            levels[at] = [self.tree_block(level, index, first, below) for index in range(len(level))]
            first = below

    def tree_block(self, level, index, first, below):
        magic, depth, part = level[index]
        forw = first + index + 1 if index + 1 < len(level) else 0
        back = first + index - 1 if index else 0
        block = bytearray(BLOCK)
        struct.pack_into(">IIH", block, 0, forw, back, magic)
        self.own(block, 32)
        struct.pack_into(">HH", block, 56, len(part), depth)
        start = below if magic == NODE else 0
        struct.pack_into(f">{2 * len(part)}I", block, 64, *(n for a, b in part for n in (a, start + b)))
        return block

    def free_index(self, first):
        part = self.bests[first : first + BESTS]
        block = bytearray(BLOCK)
        block[0:4] = b"XDF3"
        self.own(block, 24)
        struct.pack_into(">III", block, 48, first, len(part), len(part))
        struct.pack_into(f">{len(part)}H", block, 64, *part)
        return block

    def write(self, path):
        # Data and free-index blocks have their checksum at 4 and their place at 8, those of the tree at 12 and 16.
        blocks = [(b, 4) for b in self.data] + [(b, 12) for b in self.tree] + [(b, 4) for b in self.free]
        with open(path, "r+b") as image:
            image.seek(self.geometry.place(0) * BLOCK)
            for index, (block, at) in enumerate(blocks):
                struct.pack_into(">Q", block, at + 4, self.geometry.place(index) * (BLOCK // SECTOR))
                block[at : at + 4] = checksum(block, at)
                image.write(block)
        change(path, self.geometry.root * SECTOR, SECTOR, 100, self.edit)

    def edit(self, inode):
        if inode[82]:
            sys.exit("the root has an attribute fork")
        runs = [(0, self.data), (LEAF_FILE_BLOCK, self.tree), (FREE_FILE_BLOCK, self.free)]
        inode[5] = 2
        struct.pack_into(">QQ", inode, 56, BLOCK * len(self.data), sum(len(run) for _, run in runs))
        if inode[127] & LONG_COUNTS:
            struct.pack_into(">Q", inode, 24, len(runs))
        else:
            struct.pack_into(">I", inode, 76, len(runs))
        index = 0
        for at, (first, run) in enumerate(runs):
            record = first << 73 | self.geometry.block(index) << 21 | len(run)
            inode[176 + 16 * at : 192 + 16 * at] = record.to_bytes(16, "big")
            index += len(run)


def parts(entries):
    return [entries[at : at + ENTRIES] for at in range(0, len(entries), ENTRIES)]


def main(path, count, told):
    geometry = Geometry(path)
    named = [(1000 + number, name_of(number), FILE) for number in range(count)]
    dots = [(geometry.root, b".", DIRECTORY), (geometry.root, b"..", DIRECTORY)]
    Directory(geometry, dots + named).write(path)
    with open(told, "wb") as text:
        text.write(b"ok %d\n" % count)
        text.writelines(b"%d reg %s\n" % (ino, name) for name, ino in sorted((name, ino) for ino, name, _ in named))


if __name__ == "__main__":
    main(sys.argv[1], int(sys.argv[2]), sys.argv[3])
