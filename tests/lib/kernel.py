"""The directories of kernel_read: how Linux fills them, and what it reads.

    kernel.py fill MOUNT                            makes the directories
    kernel.py read MOUNT                            prints what they hold, as JSON
    kernel.py check READ IMAGE PROGRAM MANIFEST     compares the program's answers
"""

import itertools
import json
import os
import random
import re
import stat
import subprocess
import sys

from xfs_image import escaped

MODES = [stat.S_IFIFO, stat.S_IFSOCK, stat.S_IFCHR, stat.S_IFBLK]
KIND_OF = {
    stat.S_IFREG: "reg",
    stat.S_IFDIR: "dir",
    stat.S_IFCHR: "chr",
    stat.S_IFBLK: "blk",
    stat.S_IFIFO: "fifo",
    stat.S_IFSOCK: "sock",
    stat.S_IFLNK: "lnk",
}
COUNTS = [0, 1, 3, 9, 14, 40, 75, 110, 200, 380, 480, 520, 700, 900]
# Names that are looked up in each directory, and are there in few.
ABSENT = [b"none", b"n", b"nearly-0001", 255 * b"x"]


class Pool:
    """Files to which names are linked. No inode is made for these, so that the blocks of a directory stay side by side."""

    def __init__(self, top, count):
        self.paths = []
        for at in range(count):
            folder = os.path.join(top, b"pool-%d" % (at // 50))
            os.makedirs(folder, exist_ok=True)
            self.paths.append(os.path.join(folder, b"%d" % at))
            open(self.paths[-1], "wb").close()

    def link(self, folder, names):
        for name, path in zip(names, itertools.cycle(self.paths)):
            os.link(path, os.path.join(folder, name))


def plain_names(count):
    return [b"name-%04d" % at for at in range(count)]


def wild_name(source, length):
    name = bytes(source.choice([b for b in range(1, 256) if b != 0x2F]) for _ in range(length))
    return name if name not in (b".", b"..") else b"~" * length


def names_of_one_hash(pairs):
    # "Raven" and "ravel" have one hash, and so have all rows of them of one length.
    return [b"".join(parts) for parts in itertools.product([b"Raven", b"ravel"], repeat=pairs)]


def make(path, at):
    # A file of one of the kinds.
    kind = at % (len(MODES) + 3)
    if kind < len(MODES):
        os.mknod(path, MODES[kind] | 0o600, os.makedev(1, 3))
    elif kind == len(MODES):
        os.symlink(b"target", path)
    elif kind == len(MODES) + 1:
        os.mkdir(path)
    else:
        open(path, "wb").close()


def folder_in(top, name):
    path = os.path.join(top, name)
    os.mkdir(path)
    return path


def unlink_all(folder, names):
    for name in names:
        os.unlink(os.path.join(folder, name))


def fill_counts(top, pool):
    # Directories of each count, as they were made; without every second name; without those in front, in the middle and
    # behind; and with new names for some that went.
    for count in COUNTS:
        names = plain_names(count)
        third = count // 3
        gone = {
            b"all": [],
            b"half": names[::2],
            b"front": names[: 2 * third],
            b"middle": names[third : 2 * third],
            b"back": names[2 * third :],
            b"but-five": names[5:],
        }
        for how, unlinked in gone.items():
            folder = folder_in(top, b"%s-%d" % (how, count))
            pool.link(folder, names)
            unlink_all(folder, unlinked)
        folder = folder_in(top, b"again-%d" % count)
        pool.link(folder, names)
        unlink_all(folder, names[third : 2 * third])
        pool.link(folder, [b"nearly-%04d-longer" % at for at in range(third // 2)])


def fill_names(top, source):
    # Names of all lengths and of any bytes, and files of all kinds.
    for at, lengths in enumerate([range(1, 9), range(1, 60), range(1, 256), 90 * [8], range(200, 256)]):
        folder = folder_in(top, b"wild-%d" % at)
        for number, length in enumerate(lengths):
            path = os.path.join(folder, wild_name(source, length))
            if not os.path.lexists(path):
                make(path, number)


def fill_hashes(top, pool):
    for pairs in (1, 3, 6, 9):
        names = names_of_one_hash(pairs)
        for how, unlinked in ((b"all", []), (b"third", names[::3]), (b"front", names[: len(names) // 2])):
            folder = folder_in(top, b"hash-%s-%d" % (how, pairs))
            pool.link(folder, plain_names(20) + names)
            unlink_all(folder, unlinked)


def fill_renamed(top, pool, source):
    # Names that change within a directory, and go from one to another.
    for count in (5, 30, 150, 600):
        here, there = folder_in(top, b"here-%d" % count), folder_in(top, b"there-%d" % count)
        names = plain_names(count)
        pool.link(here, names)
        source.shuffle(names)
        for at, name in enumerate(names[: 2 * count // 3]):
            to = (here if at % 2 else there, b"%d-was-%s" % (at, name))
            os.rename(os.path.join(here, name), os.path.join(*to))


def fill_deep(top):
    # Directories in directories of each form.
    for count in (2, 40, 200, 600):
        path = folder_in(top, b"deep-%d" % count)
        for at in range(count - 1):
            os.symlink(b"target", os.path.join(path, b"link-%04d" % at))
        for depth in range(4):
            path = folder_in(path, b"down \\%d" % depth)
            for at in range(8 * depth):
                make(os.path.join(path, b"in-%d" % at), at)


def fill(top):
    source = random.Random(5)
    pool = Pool(folder_in(top, b"pool"), 1000)
    fill_counts(folder_in(top, b"counts"), pool)
    fill_names(top, source)
    fill_hashes(top, pool)
    fill_renamed(top, pool, source)
    fill_deep(top)


def read(top):
    # Of each directory its number, its path, and of each entry the number, kind and name, in the order of their bytes.
    found = []
    for folder, _, _ in os.walk(top):
        entries = []
        with os.scandir(folder) as scanned:
            for entry in scanned:
                kind = KIND_OF[stat.S_IFMT(entry.stat(follow_symlinks=False).st_mode)]
                entries.append((entry.name, entry.inode(), kind))
        entries = [(ino, kind, name.hex()) for name, ino, kind in sorted(entries)]
        found.append((os.stat(folder).st_ino, folder[len(top) :].hex(), entries))
    json.dump(found, sys.stdout)


def forms(image, numbers):
    # The form of each directory, by what xfs_db tells of its data fork.
    commands = [part for number in numbers for part in ("-c", f"inode {number}", "-c", "print core.format", "-c", "bmap -d")]
    told = subprocess.run(["xfs_db", "-r", *commands, image], stdout=subprocess.PIPE, check=True).stdout.decode()
    parts = re.split(r"^core\.format = (\d+) .*$", told, flags=re.M)[1:]
    return {number: form(int(parts[2 * at]), parts[2 * at + 1]) for at, number in enumerate(numbers)}


def form(fork_format, bmap):
    runs = [(int(first), int(count)) for first, count in re.findall(r"data offset (\d+) .* count (\d+) ", bmap)]
    if fork_format == 1:
        return "short"
    if fork_format == 3:
        return "extents in a tree"
    if runs == [(0, 1)]:
        return "block"
    return "leaf" if sum(runs[-1]) == 8388609 else "node"


class Program:
    def __init__(self, image, program, manifest):
        self.image, self.program, self.manifest, self.asked = image, program, manifest, 0

    def compare(self, command, word, status, text):
        words = [self.program, command, self.image, self.manifest, word]
        done = subprocess.run(words, stdout=subprocess.PIPE, check=False)
        told = done.stdout.decode("ascii")
        if (done.returncode, told) != (status, text):
            sys.exit(f"{command} {word}: status {done.returncode} and\n{told}where status {status} is wanted and\n{text}")
        self.asked += 1


def path_of(folder, name):
    return "/".join(escaped(part) for part in (folder + b"/" + name).split(b"/"))


def resolve_in(asked, source, folder, entries):
    # Some names that are there, and some that aren't.
    names = {name: f"ok {ino} {kind}\n" for ino, kind, name in entries}
    there = source.sample(sorted(names), min(8, len(names)))
    for name in there + ABSENT + [name[:-1] + b"\x01" for name in there[:3]]:
        answer = names.get(name, "error 2 ENOENT\n")
        asked.compare("resolve", path_of(folder, name), 0, answer)


def check(read_path, image, program, manifest):
    source = random.Random(6)
    with open(read_path, encoding="ascii") as file:
        directories = json.load(file)
    form_of = forms(image, [number for number, _, _ in directories])
    asked = Program(image, program, manifest)
    for number, folder, entries in directories:
        entries = [(ino, kind, bytes.fromhex(name)) for ino, kind, name in entries]
        if form_of[number] == "extents in a tree":
            asked.compare("list", str(number), 2, f"image rule 11 inode {number} block 0\n")
            continue
        lines = [f"ok {len(entries)}", *(f"{ino} {kind} {escaped(name)}" for ino, kind, name in entries)]
        asked.compare("list", str(number), 0, "".join(line + "\n" for line in lines))
        resolve_in(asked, source, bytes.fromhex(folder), entries)
    counted = sorted(form_of.values())
    for one in ("short", "block", "leaf", "node"):
        if one not in counted:
            sys.exit(f"no directory is in {one} form")
    print(*(f"{counted.count(one)} directories: {one}" for one in dict.fromkeys(counted)), sep="\n")
    print(f"{asked.asked} answers are those wanted")


if __name__ == "__main__":
    match sys.argv[1:]:
        case ["fill", top]:
            fill(os.fsencode(top))
        case ["read", top]:
            read(os.fsencode(top))
        case ["check", read_path, image, program, manifest]:
            check(read_path, image, program, manifest)
