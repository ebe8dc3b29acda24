"""The images of kernel_check that are accepted: how Linux fills them, and what a walk shows.

    check.py fill MOUNT SIZE             makes the files and directories; SIZE is `small` or `large`
    check.py walk MOUNT WALK             prints how many inodes, directories and entries there are, and writes to WALK which
    check.py trees IMAGE MANIFEST WALK   prints the inodes of which a fork that is looked at has its extents in a tree, behind
                                         what is to be told for that; or nothing
    check.py drop MOUNT INO..            takes these away, with all their names
"""

import importlib.machinery
import importlib.util
import json
import os
import shutil
import stat
import sys

import kernel
import manifest
import parents

TREE = 3


def fill(top, size):
    kernel.fill(kernel.folder_in(top, b"names"))
    filler = parents.Filler(kernel.folder_in(top, b"links"))
    parents.fill_lengths(filler)
    parents.fill_kinds(filler)
    if size == "large":
        parents.fill_counts(filler)
        parents.fill_values(filler)
        parents.fill_hashes(filler)
    parents.fill_renamed(filler)


def walk(top):
    # Of each entry the numbers of its directory and its inode, its path, and whether it is a directory.
    for folder, _, _ in os.walk(top):
        directory = os.stat(folder).st_ino
        with os.scandir(folder) as entries:
            for entry in entries:
                yield directory, entry.inode(), entry.path, entry.is_dir(follow_symlinks=False)


def count(top, written):
    entries = list(walk(top))
    inodes = {os.stat(top).st_ino, *(number for _, number, _, _ in entries)}
    directories = 1 + sum(is_directory for _, _, _, is_directory in entries)
    print(f"inodes {len(inodes)} directories {directories} entries {len(entries)}")
    with open(written, "w", encoding="ascii") as file:
        json.dump([(directory, number) for directory, number, _, _ in entries], file)


def trees_of(path, listed):
    tool = os.path.join(os.path.dirname(os.path.abspath(__file__)), "../../tools/manifest")
    spec = importlib.util.spec_from_loader("image_reader", importlib.machinery.SourceFileLoader("image_reader", tool))
    reader = importlib.util.module_from_spec(spec)
    spec.loader.exec_module(reader)
    with open(path, "rb") as file:
        image = reader.Image(file)
        for number in manifest.inodes(listed):
            inode = image.inode(number)
            mode = int.from_bytes(inode[2:4], "big")
            if (stat.S_ISDIR(mode) and inode[5] == TREE) or (inode[82] and inode[83] == TREE):
                yield number


def trees(path, listed, walked):
    # The entries of a directory that is refused don't count, so that what they name has too many links.
    found = set(trees_of(path, listed))
    if found:
        with open(walked, encoding="ascii") as file:
            named = {number for directory, number in json.load(file) if directory in found}
        first = min(found | named)
        print(f"image rule {11 if first in found else 12} inode {first} block 0", *found, sep="\n")


def drop(top, numbers):
    gone = [(path, is_directory) for _, number, path, is_directory in walk(top) if number in numbers]
    for path, is_directory in gone:
        if is_directory:
            shutil.rmtree(path, ignore_errors=True)
        elif os.path.lexists(path):
            os.unlink(path)


if __name__ == "__main__":
    match sys.argv[1:]:
        case ["fill", top, size]:
            fill(os.fsencode(top), size)
        case ["walk", top, written]:
            count(os.fsencode(top), written)
        case ["trees", image, listed, walked]:
            trees(image, listed, walked)
        case ["drop", top, *numbers]:
            drop(os.fsencode(top), set(map(int, numbers)))
