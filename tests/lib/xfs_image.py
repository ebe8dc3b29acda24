"""What the scripts on images of mkfs.xfs share: checksums, the superblock, and names as xfs_db prints them.

As a program:
    xfs_image.py root IMAGE      prints the number of the root
    xfs_image.py parent IMAGE    sets the bit of parent pointers, and makes the superblock's checksum right
"""

import re
import sys

KINDS = {1: "reg", 2: "dir", 3: "chr", 4: "blk", 5: "fifo", 6: "sock", 7: "lnk"}
PARENT = 0x80
SECTOR = 512
BLOCK = 4096


def table():
    # What a byte does to the register.
    for byte in range(256):
        for _ in range(8):
            byte = (byte >> 1) ^ (0x82F63B78 if byte & 1 else 0)
        yield byte


TABLE = list(table())


def crc32c(data):
    register = 0xFFFFFFFF
    for byte in data:
        register = TABLE[(register ^ byte) & 255] ^ (register >> 8)
    return register ^ 0xFFFFFFFF


def checksum(piece, at):
    return crc32c(piece[:at] + bytes(4) + piece[at + 4 :]).to_bytes(4, "little")


def change(path, place, length, at, edit):
    # Changes a piece of the image that has a checksum, which is right before and after.
    with open(path, "r+b") as image:
        image.seek(place)
        piece = bytearray(image.read(length))
        if piece[at : at + 4] != checksum(piece, at):
            sys.exit("a checksum is not CRC32c's")
        edit(piece)
        piece[at : at + 4] = checksum(piece, at)
        image.seek(place)
        image.write(piece)


def root(path):
    with open(path, "rb") as image:
        print(int.from_bytes(image.read(SECTOR)[56:64], "big"))


def set_parent(path):
    def edit(sector):
        incompat = int.from_bytes(sector[216:220], "big")
        if incompat & PARENT:
            sys.exit("mkfs.xfs set the bit of parent pointers itself")
        sector[216:220] = (incompat | PARENT).to_bytes(4, "big")

    change(path, 0, SECTOR, 224, edit)


def name_bytes(quoted):
    # xfs_db writes a byte that is no graph of ASCII as three octal digits, and a backslash before `"` and `\`
    parts = re.findall(r'\\([0-7]{3})|\\(["\\])|([^"\\])', quoted)
    name = bytes(int(octal, 8) if octal else ord(marked or plain) for octal, marked, plain in parts)
    if len(name) != len(parts):
        sys.exit(f"a name that can't be read: {quoted}")
    return name


def escaped(name):
    return "".join(chr(b) if 0x21 <= b <= 0x7E and b != 0x5C else f"\\{b:02x}" for b in name)


if __name__ == "__main__":
    match sys.argv[1:]:
        case ["root", path]:
            root(path)
        case ["parent", path]:
            set_parent(path)
