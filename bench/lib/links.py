"""Gives a file of an image of mkfs.xfs many links, by its attribute fork alone, and times who reads them.

    links.py put IMAGE FILE LINKS TOLD        lays out the fork, and writes to TOLD what `xfsns parents` is to tell of the file
    links.py run PROGRAM IMAGE FILE TOLD      prints a line of numbers
    links.py table LINES                      prints the lines as a table, and ends with status 1 where a number is missed

FILE is the number of an inode without blocks. The directories that are named aren't there.
"""

import re
import struct
import sys

from measure import OUTPUT, best_of, peak_of
from node_form import BLOCK, LONG_COUNTS, NODE, Geometry, name_hash, name_of, parts
from xfs_image import SECTOR, change, checksum

LEAF = 0x3BEE
LEAF_HEADER = 80
ENTRY = 8
# The flags of an attribute that is a parent record, with its value beside its name.
PARENT = 9
VALUE = 12
# The attribute fork begins behind a data fork of so many units of eight bytes.
OFFSET = 24
EXTENTS = 2
DIRECTORIES = 97
COLUMNS = ["Links", "`parents`, s", "`xfs_db`'s `parent`, s", "`parents`' peak memory, MB", "bytes a link beside names and text"]


def record_of(geometry, number):
    # The directory, the name, and the generation. Directories are in all groups.
    at = number % DIRECTORIES
    directory = at % geometry.agcount << geometry.agblklog + 3 | 1024 + at
    return directory, name_of(number), directory * 2654435761 % 2**32


def record_hash(record):
    directory, name, _ = record
    return name_hash(name) ^ directory >> 32 ^ directory & 0xFFFFFFFF


def name_size(name):
    return (3 + len(name) + VALUE + 3) // 4 * 4


def leaves_of(hashed):
    # As many in a leaf as there is room for.
    leaves, left = [], 0
    for one in hashed:
        size = ENTRY + name_size(one[1][1])
        if size > left:
            leaves.append([])
            left = BLOCK - LEAF_HEADER
        leaves[-1].append(one)
        left -= size
    return leaves


class Fork:
    """The blocks of the fork, which lie side by side: their bytes, but for place and checksum."""

    def __init__(self, geometry, owner, records):
        self.geometry, self.owner, self.links = geometry, owner, len(records)
        hashed = sorted((record_hash(record), record) for record in records)
        levels = [leaves_of(hashed)]
        while len(levels[0]) > 1:
            # Of each child the greatest hash, and its index within the level.
            levels.insert(0, parts([(child[-1][0], index) for index, child in enumerate(levels[0])]))
        self.blocks, first = [], 0
        for depth, level in zip(reversed(range(len(levels))), levels):
            below = first + len(level)
            self.blocks += [self.block(depth, part, index, len(level), first, below) for index, part in enumerate(level)]
            first = below

    def block(self, depth, part, index, count, first, below):
        block = bytearray(BLOCK)
        forw = first + index + 1 if index + 1 < count else 0
        back = first + index - 1 if index else 0
        struct.pack_into(">IIH", block, 0, forw, back, NODE if depth else LEAF)
        block[32:56] = self.geometry.uuid + struct.pack(">Q", self.owner)
        if depth:
            struct.pack_into(">HH", block, 56, len(part), depth)
            struct.pack_into(f">{2 * len(part)}I", block, 64, *(n for a, b in part for n in (a, below + b)))
        else:
            fill_leaf(block, part)
        return block

    def write(self, path):
        with open(path, "r+b") as image:
            image.seek(self.geometry.place(0) * BLOCK)
            for index, block in enumerate(self.blocks):
                struct.pack_into(">Q", block, 16, self.geometry.place(index) * (BLOCK // SECTOR))
                block[12:16] = checksum(block, 12)
                image.write(block)
        change(path, self.owner * SECTOR, SECTOR, 100, self.edit)

    def edit(self, inode):
        if any(inode[64:72]):
            sys.exit("the file has blocks")
        inode[82:84] = OFFSET, EXTENTS
        struct.pack_into(">I", inode, 16, self.links)
        struct.pack_into(">Q", inode, 64, len(self.blocks))
        struct.pack_into(*((">I", inode, 76) if inode[127] & LONG_COUNTS else (">H", inode, 80)), 1)
        at = 176 + 8 * OFFSET
        inode[at : at + 16] = (self.geometry.block(0) << 21 | len(self.blocks)).to_bytes(16, "big")


def fill_leaf(block, part):
    # Entries from the front, names with their values from the end.
    end = BLOCK
    for at, (its_hash, (directory, name, generation)) in enumerate(part):
        end -= name_size(name)
        struct.pack_into(">IHB", block, LEAF_HEADER + ENTRY * at, its_hash, end, PARENT)
        spelled = struct.pack(">HB", VALUE, len(name)) + name + struct.pack(">QI", directory, generation)
        block[end : end + len(spelled)] = spelled
    behind = LEAF_HEADER + ENTRY * len(part)
    struct.pack_into(">HHHxxHH", block, 56, len(part), BLOCK - end, end, behind, end - behind)


def put(path, owner, links, told):
    geometry = Geometry(path)
    records = [record_of(geometry, number) for number in range(links)]
    Fork(geometry, owner, records).write(path)
    with open(told, "wb") as text:
        text.write(b"ok %d\n" % links)
        text.writelines(b"%d %d %s\n" % (directory, its, name) for directory, name, its in sorted(records))


def run(program, image, owner, told):
    words = [program, "parents", image, "manifest", owner]
    # before this program takes memory itself
    peak = peak_of(words)
    with open(told, "rb") as text:
        wanted = text.read()
    lines = [line.split(b" ") for line in wanted.splitlines()[1:]]
    seconds = best_of(words)
    with open(OUTPUT, "rb") as text:
        if text.read() != wanted:
            sys.exit("parents tells something else")
    db_seconds = best_of(["xfs_db", "-r", "-c", f"inode {owner}", "-c", "parent", image])
    with open(OUTPUT, "rb") as text:
        found = re.findall(rb"^ *(\d+):0x([0-9a-f]{8}) +\d+ (\S+)$", text.read(), re.M)
    if sorted((int(directory), name, int(its, 16)) for directory, its, name in found) != [
        (int(directory), name, int(its)) for directory, its, name in lines
    ]:
        sys.exit("xfs_db tells other parents")
    beside = peak - sum(len(line[2]) for line in lines) - len(wanted)
    print(len(lines), seconds, db_seconds, peak, beside / len(lines))


def table(path):
    with open(path, encoding="ascii") as lines:
        rows = [list(map(float, line.split())) for line in lines]
    print(f"| {' | '.join(COLUMNS)} |")
    print("|" + "---:|" * len(COLUMNS))
    for links, seconds, db_seconds, peak, beside in rows:
        print(f"| {links:,.0f} | {seconds:.4f} | {db_seconds:.3f} | {peak / 1e6:.1f} | {beside:,.0f} |")
    print()
    *_, many, most = rows
    found, limit = most[1] / many[1], 12
    print(f"parents of 100,000 links to parents of 10,000: {found:.2f}, at most {limit} is wanted{'' if found <= limit else ': MISSED'}")
    if found > limit:
        sys.exit(1)


if __name__ == "__main__":
    match sys.argv[1:]:
        case ["put", image, owner, links, told]:
            put(image, int(owner), int(links), told)
        case ["run", program, image, owner, told]:
            run(program, image, owner, told)
        case ["table", path]:
            table(path)
