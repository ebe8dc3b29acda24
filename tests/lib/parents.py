"""The inodes of kernel_parents: how Linux fills them, and what it reads.

    parents.py fill MOUNT                            makes the inodes
    parents.py read MOUNT                            prints the entries that name each of them, as JSON
    parents.py check READ IMAGE PROGRAM MANIFEST     compares the program's answers, and what xfs_db tells
"""

import ctypes
import fcntl
import itertools
import json
import os
import random
import re
import stat
import subprocess
import sys

from kernel import Program, folder_in, make, names_of_one_hash
from xfs_image import escaped

COUNTS = [1, 2, 3, 4, 6, 9, 14, 25, 60, 110, 150, 300, 600, 900]
# Sizes of values. One of up to 255 bytes can stand in the inode, and one of more than some 3,050 stands in blocks of its own.
VALUES = [0, 1, 12, 60, 255, 256, 1000, 2000, 3000, 3040, 3056, 3072, 5000, 20_000, 60_000]
# A name of 250 bytes is the longest that is let through behind `user.`.
LENGTHS = [1, 2, 5, 12, 40, 100, 180, 250]
# A file with so many links has a tree with nodes on two levels.
MANY = 40_000
GET_GENERATION = 0x8008_7601  # FS_IOC_GETVERSION
AT_FDCWD, RENAME_EXCHANGE = -100, 2
# What xfs_db tells: formats, the root of a leaf or a tree, and parents.
SHORT, EXTENTS, TREE = b"1", b"2", b"3"
REFUSED = "extents in a tree"
LEAF = b"0x3bee"
CORE = re.compile(rb"core\.mode = (\d+)\ncore\.format = (\d) .*\ncore\.aformat = (\d) .*\ncore\.naextents = (\d+)\n")
MODE = re.compile(rb"core\.mode = \d+\n")
ROOT = re.compile(rb"hdr\.info\.hdr\.magic = (\w+)\n(?:hdr\.level = (\d+)\n)?")
PARENT = re.compile(rb" *(\d+):0x([0-9a-f]{8}) +(\d+) ")
SHOWN_PARENT = re.compile(rb'parent = 1\n.*name = "(.*)"\n.*inumber = (\d+)\n.*gen = (\d+)\n')
SHOWN_BYTE = re.compile(rb"\\([0-7]{3})|\\([a-g])|\\?(.)")
# Bytes that no name has become others.
ALLOWED = bytes({0: 1, 0x2F: 0x2E}.get(byte, byte) for byte in range(256))
# How many inodes xfs_db is asked of at once.
BATCH = 1000


def wild_name(source, length):
    name = source.randbytes(length).translate(ALLOWED)
    return name if name not in (b".", b"..") else b"~" * length


class Filler:
    """Makes files in folders of all groups, and links them there. Linux puts folders into one group after the other."""

    def __init__(self, top):
        self.source = random.Random(7)
        self.folders = [folder_in(top, b"folder-%d" % at) for at in range(240)]
        self.numbers = itertools.count()

    def file(self, kind=6):
        number = next(self.numbers)
        path = os.path.join(self.folders[number % len(self.folders)], b"file-%d" % number)
        make(path, kind)
        return path

    def some(self, count):
        return self.source.sample(self.folders, min(count, len(self.folders)))

    def name(self, how, at):
        # A name of an own kind.
        match how:
            case "plain":
                return b"%d-name-%04d" % (next(self.numbers), at)
            case "any":
                return wild_name(self.source, self.source.randint(1, 255))
            case "tiny":
                return wild_name(self.source, self.source.choice([1, 1, 2]))
            case "long":
                return wild_name(self.source, self.source.randint(240, 255))
        return None

    def link(self, path, how, count, folders):
        # The new entries; a name that is taken is passed over.
        made = []
        for at, folder in zip(range(count), itertools.cycle(folders)):
            entry = os.path.join(folder, self.name(how, at))
            try:
                os.link(path, entry, follow_symlinks=False)
            except FileExistsError:
                continue
            made.append(entry)
        return made

    def attribute(self, path, space, length, size):
        # Gives the path an attribute, and tells its name.
        name = space + wild_name(self.source, length)
        os.setxattr(path, name, self.source.randbytes(size), follow_symlinks=False)
        return name


def fill_many(filler):
    # The folders are in other groups than the file, so that the blocks of its attribute fork lie side by side.
    path = filler.file()
    filler.link(path, "plain", MANY, filler.folders[1:4])


def unlink_all(entries):
    for entry in entries:
        os.unlink(entry)


def fill_counts(filler):
    # Files of each count of links, as they were made; without every second; without those in front, in the middle and
    # behind; and with new ones for some that went.
    for count, how in itertools.product(COUNTS, ["plain", "any", "tiny", "long"]):
        third = count // 3
        for gone in (slice(0), slice(0, count, 2), slice(2 * third), slice(third, 2 * third), slice(5, count)):
            path = filler.file()
            made = filler.link(path, how, count, filler.some(1 + count // 4))
            unlink_all(made[gone])
        path = filler.file()
        made = filler.link(path, how, count, filler.some(3))
        unlink_all(made[third : 2 * third])
        filler.link(path, "any", third, filler.some(2))


def fill_values(filler):
    # Attributes of each size before, between and behind links, and some of them taken away or given another size.
    for links, count in itertools.product((0, 1, 5, 40, 250), (1, 3, len(VALUES))):
        for first in range(0, len(VALUES), count):
            path = filler.file()
            filler.link(path, "any", links // 2, filler.some(4))
            sizes = VALUES[first : first + count]
            names = [filler.attribute(path, b"user.", length, size) for length, size in zip(itertools.cycle(LENGTHS), sizes)]
            filler.link(path, "plain", links - links // 2, filler.some(4))
            if first % 2:
                os.removexattr(path, names[0])
            elif first % 4:
                os.setxattr(path, names[-1], bytes(40))


def fill_lengths(filler):
    # Attributes of each length of name: in the inode, in leaves beside their values, and with values elsewhere.
    for size, step in ((3, 1), (300, 3), (6000, 11)):
        path = filler.file()
        for length in range(1, 251, step):
            filler.attribute(path, b"user.", length, size)
            filler.link(path, "any", 1, filler.some(1))
    # A large value makes a leaf of the short form, and without it the form is short again.
    for links in range(6):
        path = filler.file()
        filler.link(path, "tiny", links, filler.some(3))
        os.removexattr(path, filler.attribute(path, b"user.", 20, 5000))


def fill_kinds(filler):
    # Files of all kinds with links and attributes.
    for kind, links in itertools.product(range(7), (0, 2, 30)):
        path = filler.file(kind)
        if kind != 5:
            filler.link(path, "any", links, filler.some(5))
        filler.attribute(path, b"trusted.", 9, 10)
        filler.attribute(path, b"security.", 7, 100 * links)


def fill_hashes(filler):
    # Links whose hashes are the same: in one folder with names of one hash.
    for pairs in (1, 3, 6, 9):
        names = names_of_one_hash(pairs)
        for gone in ([], names[::3], names[: len(names) // 2]):
            path, folder = filler.file(), folder_in(filler.folders[0], b"hash-%d" % next(filler.numbers))
            for name in names:
                os.link(path, os.path.join(folder, name))
            filler.link(path, "any", 50, filler.some(9))
            unlink_all(os.path.join(folder, name) for name in gone)


def exchange(here, there):
    libc = ctypes.CDLL(None, use_errno=True)
    if libc.renameat2(AT_FDCWD, here, AT_FDCWD, there, RENAME_EXCHANGE) != 0:
        raise OSError(ctypes.get_errno(), "renameat2")


def fill_renamed(filler):
    # Links that change their names and folders, replace others, and change places with others; folders too.
    for count in (3, 20, 150, 500):
        path, other = filler.file(), filler.file()
        mine = filler.link(path, "any", count, filler.some(7))
        others = filler.link(other, "plain", count, filler.some(7))
        for at, (entry, taken) in enumerate(zip(mine, others)):
            match at % 4:
                case 0:
                    os.rename(entry, os.path.join(filler.some(1)[0], filler.name("plain", at)))
                case 1:
                    os.rename(entry, taken)
                case 2:
                    exchange(entry, taken)
    for depth in range(12):
        inner = folder_in(filler.some(1)[0], filler.name("long", depth))
        make(os.path.join(inner, b"in"), depth)
        os.rename(inner, os.path.join(filler.folders[depth], b"moved-%d" % depth))


def fill(top):
    filler = Filler(top)
    fill_many(filler)
    fill_counts(filler)
    fill_values(filler)
    fill_lengths(filler)
    fill_kinds(filler)
    fill_hashes(filler)
    fill_renamed(filler)


def generation(path):
    folder = os.open(path, os.O_RDONLY)
    told = fcntl.ioctl(folder, GET_GENERATION, bytes(8))
    os.close(folder)
    return int.from_bytes(told[:4], sys.byteorder)


def read(top):
    # Of each inode the folder, its generation and the name of each entry, in the order of the reply.
    found = {os.stat(top).st_ino: []}
    for folder, _, _ in os.walk(top):
        number, its_generation = os.stat(folder).st_ino, generation(folder)
        with os.scandir(folder) as entries:
            for entry in entries:
                found.setdefault(entry.inode(), []).append((number, entry.name, its_generation))
    told = {ino: [(number, name.hex(), its) for number, name, its in sorted(parents)] for ino, parents in found.items()}
    json.dump(told, sys.stdout)


def told_by_xfs_db(image, numbers, *commands):
    told = []
    for first in range(0, len(numbers), BATCH):
        asked = [command for number in numbers[first : first + BATCH] for command in (f"inode {number}", *commands)]
        words = [word for command in asked for word in ("-c", command)]
        told.append(subprocess.run(["xfs_db", "-r", *words, image], stdout=subprocess.PIPE, check=True).stdout)
    return b"".join(told)


def shown(text):
    # The bytes of a name that `print` shows.
    return bytes(int(m[1], 8) if m[1] else m[2][0] - 0x5A if m[2] else m[3][0] for m in SHOWN_BYTE.finditer(text))


def short_parents(image, numbers):
    # Of short forms `parent` tells nothing (6.13), but `print` shows their attributes.
    _, *told = told_by_xfs_db(image, numbers, "print a").split(b"a.sfattr.hdr.totsize = ")
    return {
        number: [(int(record[2]), shown(record[1]), int(record[3])) for record in SHOWN_PARENT.finditer(text)]
        for number, text in zip(numbers, told, strict=True)
    }


def other_parents(image, numbers):
    # `parent` tells a name as it stands, with its length in front.
    told, at, found = told_by_xfs_db(image, numbers, "parent", "print core.mode"), 0, {}
    for number in numbers:
        found[number] = []
        while record := PARENT.match(told, at):
            at = record.end() + int(record[3])
            found[number].append((int(record[1]), told[record.end() : at], int(record[2], 16)))
            at += 1
        at = MODE.match(told, at).end()
    return found


def forms_of(image, numbers):
    # The form of each attribute fork, by the inode and by the block at its root. One whose extents stand in a tree is refused,
    # and so is that of a directory with such a data fork.
    cores = CORE.findall(told_by_xfs_db(image, numbers, "print core.mode core.format core.aformat core.naextents"))
    found, rooted = {}, []
    for number, (mode, data_format, attr_format, extents) in zip(numbers, cores, strict=True):
        is_refused = attr_format == TREE or (stat.S_ISDIR(int(mode, 8)) and data_format == TREE)
        found[number] = REFUSED if is_refused else "short" if attr_format == SHORT else "none or empty"
        if not is_refused and attr_format == EXTENTS and int(extents) > 0:
            rooted.append(number)
    roots = ROOT.findall(told_by_xfs_db(image, rooted, "ablock 0", "print hdr.info.hdr.magic", "print hdr.level"))
    for number, (magic, level) in zip(rooted, roots, strict=True):
        found[number] = "a leaf" if magic == LEAF else f"nodes on {level.decode()} levels"
    return found


def compare_with_xfs_db(image, parents):
    formats = re.findall(rb"core\.aformat = (\d)", told_by_xfs_db(image, list(parents), "print core.aformat"))
    short = [number for number, its in zip(parents, formats, strict=True) if its == SHORT]
    found = short_parents(image, short)
    found.update(other_parents(image, [number for number in parents if number not in found]))
    for number, records in parents.items():
        if sorted(found[number]) != records:
            sys.exit(f"xfs_db tells other parents of {number}: {found[number]}, and not {records}")


def check(read_path, image, program, manifest):
    with open(read_path, encoding="ascii") as file:
        told = json.load(file)
    parents = {int(ino): [(number, bytes.fromhex(name), its) for number, name, its in found] for ino, found in told.items()}
    compare_with_xfs_db(image, parents)
    form_of = forms_of(image, list(parents))
    asked = Program(image, program, manifest)
    for number, found in parents.items():
        if form_of[number] == REFUSED:
            asked.compare("parents", str(number), 2, f"image rule 11 inode {number} block 0\n")
            continue
        lines = [f"ok {len(found)}", *(f"{folder} {its} {escaped(name)}" for folder, name, its in found)]
        asked.compare("parents", str(number), 0, "".join(line + "\n" for line in lines))
    forms = sorted(form_of.values())
    for one in ("short", "a leaf", "nodes on 1 levels"):
        if one not in forms:
            sys.exit(f"no attribute fork is in the form: {one}")
    told = [found for number, found in parents.items() if form_of[number] != REFUSED]
    print(f"{len(told)} inodes with {sum(map(len, told))} parent records are told, {len(parents) - len(told)} inodes are refused")
    print(*(f"{forms.count(one)} attribute forks: {one}" for one in dict.fromkeys(forms)), sep="\n")
    print(f"{asked.asked} answers are those wanted")


if __name__ == "__main__":
    match sys.argv[1:]:
        case ["fill", top]:
            fill(os.fsencode(top))
        case ["read", top]:
            read(os.fsencode(top))
        case ["check", read_path, image, program, manifest]:
            check(read_path, image, program, manifest)
