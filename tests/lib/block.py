"""The root directories of mkfs_block, and what xfs_db prints of them.

    block.py proto CASE            prints the prototype file of a case
    block.py text PRINT            turns xfs_db's print of a block into the text of xn_show
    block.py counts PRINT          tells how much the block holds
    block.py break PRINT IMAGE     changes the tag of the block's last entry, and tells what is broken
"""

import random
import re
import sys

from xfs_image import BLOCK, KINDS, SECTOR, change, escaped, name_bytes

DOTS = (b".", b"..")

# How each kind of a name goes on in a prototype file.
FILE = b"---644 0 0 /dev/null"
FORMS = [FILE, b"d--755 0 0\n$", b"l--777 0 0 target", b"p--644 0 0", b"c--644 0 0 1 3", b"b--644 0 0 7 0"]


def name_of_length(source, length):
    # A prototype file has no white space in its names, and takes `:` at the front for a note.
    first = [b for b in range(0x21, 0x100) if b not in b"/:$."]
    later = [b for b in range(0x21, 0x100) if b not in b"/"]
    return bytes([source.choice(first)] + [source.choice(later) for _ in range(length - 1)])


def names_of_lengths(seed, lengths):
    # Names of one length are made anew until none stands twice.
    source = random.Random(seed)
    names = []
    for length in lengths:
        name = name_of_length(source, length)
        while name in names:
            name = name_of_length(source, length)
        names.append(name)
    return names


def alike():
    # b"aA" and b"\x60\xc1" have one hash, and so has whatever stands before and behind both of them.
    pair = (b"aA", b"\x60\xc1")
    names = [*pair, *(a + b for a in pair for b in pair)]
    return names + [20 * b"-" + name + 29 * b"+" for name in names]


def cases():
    return {
        "eleven": [b"the_name_of_number_%d_of_the_eleven" % k for k in range(1, 12)],
        "mixed": names_of_lengths(1, [1 + k * k % 20 for k in range(92)] + [20 + 5 * k for k in range(9)]),
        "long": names_of_lengths(2, [200, 211, 254, 255, 255, 222, 233, 244]),
        "alike": alike(),
    }


def proto(case):
    lines = [b"/dev/null", b"0 0", b"d--755 0 0"]
    for at, name in enumerate(cases()[case]):
        lines.append(name + b" " + FORMS[at % len(FORMS)])
    sys.stdout.buffer.write(b"\n".join([*lines, b"$", b""]))


def fields_of(text, array):
    # The fields of each member of an array, in the array's order.
    members = {}
    for at, field, value in re.findall(rf"^{array}\[(\d+)\]\.(\w+) = (.*)$", text, re.M):
        members.setdefault(int(at), {})[field] = value
    return [members[at] for at in sorted(members)]


class Block:
    def __init__(self, path):
        text = open(path, encoding="latin-1").read()
        if "bhdr.hdr.magic = 0x58444233" not in text:
            sys.exit("the root is not in block form")
        self.sector = int(re.search(r"^bhdr\.hdr\.bno = (\d+)$", text, re.M)[1])
        pieces = fields_of(text, "bu")
        self.entries = [self.entry(fields) for fields in pieces if "inumber" in fields]
        self.leaves = [(int(leaf["hashval"], 16), int(leaf["address"], 16)) for leaf in fields_of(text, "bleaf")]
        self.count = int(re.search(r"^btail\.count = (\d+)$", text, re.M)[1])

    @staticmethod
    def entry(fields):
        name = name_bytes(fields["name"][1:-1])
        if len(name) != int(fields["namelen"]):
            sys.exit(f"a name of another length: {fields}")
        return int(fields["tag"], 16), int(fields["inumber"]), KINDS[int(fields["filetype"])], name

    def hashes(self):
        # The hash of each address; every entry has one leaf entry, and every leaf entry has an entry.
        hashes = {address: number for number, address in self.leaves}
        if not self.count == len(self.leaves) == len(hashes) == len(self.entries):
            sys.exit("the leaf entries are not as many as the entries")
        if sorted(hashes) != sorted(position // 8 for position, _, _, _ in self.entries):
            sys.exit("the leaf entries have other addresses than the entries")
        return hashes

    def named(self):
        return [entry for entry in self.entries if entry[3] not in DOTS]

    def text(self):
        hashes = self.hashes()
        print("parent", *(ino for _, ino, _, name in self.entries if name == b".."))
        for position, ino, kind, name in self.named():
            print(position, f"0x{hashes[position // 8]:08x}", ino, kind, escaped(name))
        print("looked up", len(self.named()))

    def counts(self):
        lengths = [len(name) for _, _, _, name in self.named()]
        alike = len(self.leaves) - len({number for number, _ in self.leaves})
        print(f"{len(lengths)} names of {min(lengths)} to {max(lengths)} bytes")
        print(f"{len(self.leaves)} leaf entries, {alike} of them with the hash of one before")

    def break_tag(self, path):
        position, _, _, name = self.entries[-1]
        tag = position + (8 + 1 + len(name) + 1 + 2 + 7) // 8 * 8 - 2

        def edit(block):
            if int.from_bytes(block[tag : tag + 2], "big") != position:
                sys.exit("the tag stands elsewhere")
            block[tag + 1] ^= 8

        change(path, self.sector * SECTOR, BLOCK, 4, edit)
        print(f"broken rule 17 block {self.sector * SECTOR // BLOCK}")


match sys.argv[1:]:
    case ["proto", case]:
        proto(case)
    case ["text", printed]:
        Block(printed).text()
    case ["counts", printed]:
        Block(printed).counts()
    case ["break", printed, path]:
        Block(printed).break_tag(path)
