"""The tree of mkfs_resolve: its prototype file, and its paths as xfs_db and as the program resolve them.

    tree.py proto                            prints the prototype file
    tree.py directories IMAGE                prints the numbers of the directories that get an attribute fork
    tree.py check IMAGE PROGRAM MANIFEST     compares the answers
"""

import random
import subprocess
import sys

from xfs_image import escaped

# How each kind of a name goes on in a prototype file; the root of the tree has none.
FORMS = {
    "reg": b"---644 0 0 /dev/null",
    "lnk": b"l--777 0 0 target",
    "fifo": b"p--644 0 0",
    "chr": b"c--644 0 0 1 3",
    "blk": b"b--644 0 0 7 0",
}
DIRECTORY = b"d--755 0 0"
NO_FORK = b"without"


def names(source, lengths):
    # Names that stand once, of bytes that neither a prototype file nor a command of xfs_db takes for its own.
    letters = [b for b in range(0x21, 0x100) if b not in b"/:$.\"'\\#-" and b != 0x7F]
    found = []
    for length in lengths:
        name = bytes(source.choices(letters, k=length))
        while name in found:
            name = bytes(source.choices(letters, k=length))
        found.append(name)
    return found


def files(source, lengths):
    kinds = list(FORMS)
    return {name: kinds[at % len(kinds)] for at, name in enumerate(names(source, lengths))}


def tree():
    # A directory is a dict from name to a kind or a directory. A short form has at most 336 bytes here, a block some 80
    # names of twenty bytes.
    source = random.Random(4)
    short, block = [1, 2, 3, 5, 8, 13], [1, 7, 20, 100, 255] + 60 * [20]
    deep = files(source, short)
    for name in names(source, [1, 40, 9, 4]):
        deep = {name: deep, **files(source, short)}
    return {
        b"deep": deep,
        b"block": {**files(source, block), b"again": {**files(source, block), b"short": files(source, short)}},
        b"empty": {},
        NO_FORK: files(source, short),
        **files(source, short),
    }


def print_proto(directory):
    for name, what in directory.items():
        if isinstance(what, dict):
            sys.stdout.buffer.write(name + b" " + DIRECTORY + b"\n")
            print_proto(what)
        else:
            sys.stdout.buffer.write(name + b" " + FORMS[what] + b"\n")
    sys.stdout.buffer.write(b"$\n")


def walk(directory, front=b""):
    for name, what in directory.items():
        path = front + b"/" + name
        yield path, what
        if isinstance(what, dict):
            yield from walk(what, path)


def run(*words):
    done = subprocess.run(words, stdout=subprocess.PIPE, check=False)
    return done.returncode, done.stdout.decode("latin-1")


def numbers(image, paths):
    # The inodes that xfs_db gives paths.
    commands = [part for path in paths for part in (b"-c", b"path " + path, b"-c", b"print v3.inumber")]
    status, text = run("xfs_db", "-r", *commands, image)
    found = [int(line.split(" = ")[1]) for line in text.splitlines()]
    if status != 0 or len(found) != len(paths):
        sys.exit(f"xfs_db found {len(found)} of {len(paths)} paths")
    return dict(zip(paths, found))


def print_directories(image):
    paths = [path for path, what in walk(tree()) if isinstance(what, dict) and not path.startswith(b"/" + NO_FORK)]
    print(*numbers(image, paths).values())


class Program:
    def __init__(self, image, program, manifest):
        self.image, self.program, self.manifest, self.asked = image, program, manifest, 0

    def compare(self, path, status, text):
        found = run(self.program, "resolve", self.image, self.manifest, escaped(path).replace("\\2f", "/"))
        if found != (status, text + "\n"):
            sys.exit(f"{path}: {found}, and not {(status, text)}")
        self.asked += 1


def check(image, program, manifest):
    every = dict(walk(tree()))
    inodes = numbers(image, list(every))
    asked = Program(image, program, manifest)
    refused = f"image rule 11 inode {inodes[b'/' + NO_FORK]} block 0"
    for path, what in every.items():
        if path.startswith(b"/" + NO_FORK + b"/"):
            asked.compare(path, 2, refused)
            continue
        is_directory = isinstance(what, dict)
        answer = f"ok {inodes[path]} {'dir' if is_directory else what}"
        asked.compare(path, 0, answer)
        asked.compare(path.replace(b"/", b"//") + b"/", 0, answer)
        if path != b"/" + NO_FORK:
            asked.compare(path + b"/none", 0, "error 2 ENOENT" if is_directory else "error 20 ENOTDIR")
            asked.compare(path + b"/..", 0, "error 22 EINVAL" if is_directory else "error 20 ENOTDIR")
    print(f"{len(every)} paths, of which {sum(isinstance(what, dict) for what in every.values())} are directories")
    print(f"{asked.asked} answers are those wanted")


match sys.argv[1:]:
    case ["proto"]:
        sys.stdout.buffer.write(b"/dev/null\n0 0\n" + DIRECTORY + b"\n")
        print_proto(tree())
    case ["directories", image]:
        print_directories(image)
    case ["check", image, program, manifest]:
        check(image, program, manifest)
