"""Puts the root of a made image into an image of mkfs.xfs.

    graft.py put MADE IMAGE        gives the root the made one's fork and blocks
    graft.py compare MADE IMAGE    ends with status 1 where fork or blocks differ
    graft.py complaints            the same where xfs_repair, on standard input, complains of more than blocks that are free
"""

import re
import sys

from xfs_image import BLOCK, SECTOR, change

ROOT = 128 * SECTOR
FORK = 176
# The size, the number of blocks and that of extents.
SIZES = (slice(56, 64), slice(64, 72), slice(76, 80))
# What xfs_repair tells in any case, as it goes on.
STEPS = re.compile(r"Phase \d|\s+- |done$|Cannot get host filesystem geometry|Repair may fail|the image and the host")
FREE = re.compile(r"data fork in ino 128 claims free block \d+$")


class Root:
    def __init__(self, path):
        with open(path, "rb") as image:
            bytes_of = image.read(1 << 20)
        self.inode = bytes_of[ROOT : ROOT + SECTOR]
        count = int.from_bytes(self.inode[76:80], "big")
        self.fork = self.inode[FORK : FORK + 16 * count]
        self.places = [BLOCK * (int.from_bytes(self.fork[at + 8 : at + 16], "big") >> 21) for at in range(0, 16 * count, 16)]
        self.blocks = [bytes_of[place : place + BLOCK] for place in self.places]


def put(made, path):
    root = Root(made)
    with open(path, "r+b") as image:
        for place, block in zip(root.places, root.blocks):
            image.seek(place)
            image.write(block)

    def edit(inode):
        inode[5] = 2
        for field in SIZES:
            inode[field] = root.inode[field]
        inode[FORK : FORK + len(root.fork)] = root.fork

    change(path, ROOT, SECTOR, 100, edit)


def compare(made, path):
    wanted, found = Root(made), Root(path)
    if (wanted.fork, wanted.blocks) != (found.fork, found.blocks):
        sys.exit("the fork or a block is another")


def complaints(lines):
    others = [line for line in lines if not STEPS.match(line) and not FREE.match(line)]
    if others:
        sys.exit("".join(others))


match sys.argv[1:]:
    case ["put", made, path]:
        put(made, path)
    case ["compare", made, path]:
        compare(made, path)
    case ["complaints"]:
        complaints(sys.stdin)
