"""What a manifest says, for tests/manifest.

    manifest.py inodes MANIFEST OWN..     the listed inodes but for these, a line each
    manifest.py pool MANIFEST BMAP        status 0 where the pool's blocks are those of an xfs_db `bmap`
"""

import re
import sys

EXTENT = re.compile(r"data offset \d+ startblock (\d+) \([^)]*\) count (\d+) flag \d+")


def lines(path, word):
    with open(path, encoding="ascii") as file:
        for line in file:
            first, *rest = line.split()
            if first == word:
                yield rest


def inodes(path):
    for start, mask in lines(path, "chunk"):
        for bit in range(64):
            if not int(mask, 16) >> bit & 1:
                yield int(start) + bit


def pool(path):
    return [int(first) + k for first, count in lines(path, "pool") for k in range(int(count))]


def mapped(path):
    with open(path, encoding="ascii") as file:
        extents = EXTENT.findall(file.read())
    return sorted(int(first) + k for first, count in extents for k in range(int(count)))


if __name__ == "__main__":
    match sys.argv[1:]:
        case ["inodes", path, *own]:
            for inode in inodes(path):
                if str(inode) not in own:
                    print(inode)
        case ["pool", path, bmap]:
            blocks = mapped(bmap)
            sys.exit(0 if blocks and pool(path) == blocks else 1)
        case _:
            sys.exit(__doc__)
