"""What Linux does to an image between stops: links, renames and unlinks in a few directories, which keep every inode.

    turns.py fill MOUNT             makes the directories and the files
    turns.py turn MOUNT NUMBER      makes changes by chance, by that number, and has them written to the log
    turns.py round MOUNT COUNT      makes so many changes, and has every tenth written to the log
"""

import os
import random
import sys

DIRECTORIES = 6
FILES = 40


def folder(mount, number):
    return os.path.join(mount, f"d{number}")


def kept(mount, number):
    # Each file has this name, which never goes.
    return os.path.join(mount, "kept", f"f{number}")


def fill(mount):
    os.mkdir(os.path.join(mount, "kept"))
    for number in range(DIRECTORIES):
        os.mkdir(folder(mount, number))
    for number in range(FILES):
        open(kept(mount, number), "wb").close()


def sync(path):
    handle = os.open(path, os.O_RDONLY)
    os.fsync(handle)
    os.close(handle)


def change(mount, chance):
    # One change, if the names that it draws allow it; the directory that it changed.
    where = folder(mount, chance.randrange(DIRECTORIES))
    name = os.path.join(where, f"n{chance.randrange(30)}" + "x" * chance.choice([0, 0, 20, 200]))
    act = chance.choice(["link", "link", "unlink", "rename"])
    if act == "link" and not os.path.exists(name):
        os.link(kept(mount, chance.randrange(FILES)), name)
    elif act == "unlink" and os.path.exists(name):
        os.unlink(name)
    elif act == "rename" and os.path.exists(name):
        os.rename(name, os.path.join(folder(mount, chance.randrange(DIRECTORIES)), f"n{chance.randrange(30)}"))
    return where


def turn(mount, number):
    chance = random.Random(number)
    for _ in range(chance.choice([1, 2, 5, 20])):
        where = change(mount, chance)
    sync(where)


def go_round(mount, count):
    chance = random.Random(count)
    for number in range(count):
        where = change(mount, chance)
        if number % 10 == 0:
            sync(where)
    sync(where)


if __name__ == "__main__":
    match sys.argv[1:]:
        case ["fill", mount]:
            fill(mount)
        case ["turn", mount, number]:
            turn(mount, int(number))
        case ["round", mount, count]:
            go_round(mount, int(count))
