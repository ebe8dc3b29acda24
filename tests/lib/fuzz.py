"""The small image of kernel_check whose fields are changed one at a time, and what is wanted of each change.

    fuzz.py fill MOUNT                           makes its files and directories
    fuzz.py read MOUNT                           prints what is there, as JSON
    fuzz.py hand READ IMAGE PROGRAM MANIFEST     changes fields that rules look at, each for the rule that is to be told
    fuzz.py chance READ IMAGE PROGRAM MANIFEST   changes fields by chance, with and without a right checksum
"""

import collections
import json
import os
import random
import re
import subprocess
import sys

from kernel import MODES

CHANGES = 600
SEED = 9
SECONDS = 10
OPERATIONS = ["zeroes", "ones", "firstbit", "middlebit", "lastbit", "add", "sub"]
ANSWERS = {
    0: re.compile(r"ok inodes \d+ directories \d+ entries \d+ pending 0 free \d+\n"),
    2: re.compile(r"image rule \d+ inode \d+ block \d+\n"),
    3: re.compile(r"manifest line \d+\n"),
}
LEAVES, INDEX = 1 << 23, 1 << 24
# Fields that no rule looks at, in any place: positions in the log, times, owners, flags, and what Linux alone makes use of.
IGNORED = (
    r"(.*\.)?lsn|core\.(onlink|uid|gid|projid_lo|projid_hi|[acm]time\.n?sec|extsize|dm\w+|newrtbm|prealloc|realtime)"
    r"|core\.(immutable|append|sync|noatime|nodump|rtinherit|projinherit|nosymlinks|extsz|extszinherit|nodefrag|filestream)"
    r"|next_unlinked|v3\.(change_count|flags2|cowextsize|crtime\.n?sec|reflink|cowextsz|dax|bigtime|metadata)"
    r"|hdr\.(holes|freemap.*)|nvlist\[\d+\]\.(value|valueblk)"
)
# The bits of a mode that are no kind, and a least place used that is less than it could be.
IGNORED_IN_PART = r"(core\.mode|hdr\.firstused) (middlebit|lastbit|add|sub)"
# In some places more: of what is no directory its blocks and size; and of the superblock all but what is named here.
IGNORED_OF_FILES = r"core\.(gen|size|nblocks|nextents|format)|v3\.nrext64|u3(\..*)?"
IGNORED_OF_SUPERBLOCKS = (
    r"(?!(magicnum|blocksize|sectsize|inodesize|inopblock|inopblog|agcount|agblocks|uuid|rootino|dirblklog)$).*"
)
# Those at which Linux looks before it shows the inode, and no rule does: a second space of an attribute, as of a record of a
# parent that is one of root too; and counts of extents of a fork that has none. How many are accepted is printed.
LOOSE_OF_ATTRIBUTES = r".*\.(root|secure)"
LOOSE_OF_FORKS = r"core\.naextents"
LOOSE_OF_BOTH_FORKS = r"core\.na?extents"


def fill(top):
    # Directories of the four forms, each made before what it names, and files with attributes in the three forms.
    def path(*parts):
        return os.path.join(top, *parts)

    for folder in ("short", "block", "leaf", "node"):
        os.mkdir(path(folder))
    for folder, count in (("short", 5), ("block", 60), ("leaf", 220), ("node", 20)):
        for at in range(count):
            open(path(folder, f"file-{at:04}"), "wb").close()
        os.mkdir(path(folder, "inner"))
    for at, mode in enumerate(MODES):
        os.mknod(path("block", f"kind-{at}"), mode | 0o600, os.makedev(1, 3))
    os.symlink("target", path("block", "link"))
    for name, links in (("few", 2), ("some", 30), ("many", 700)):
        open(path("node", name), "wb").close()
        for at in range(links):
            os.link(path("node", name), path("node", f"{name}-{at:04}"))
    open(path("block", "noted"), "wb").close()
    for name, size in (("user.small", 7), ("user.large", 2000), ("user.elsewhere", 9000)):
        os.setxattr(path("block", "noted"), name, b"v" * size)
    # names that go leave stale leaf entries
    for at in range(0, 220, 9):
        os.unlink(path("leaf", f"file-{at:04}"))
    for at in range(0, 700, 11):
        os.unlink(path("node", f"many-{at:04}"))


def read(top):
    # Of each path its inode, and of each directory's inode those that its entries name.
    inodes, named = {"/": os.stat(top).st_ino}, {}
    for folder, folders, files in os.walk(top):
        paths = [os.path.join(folder, name) for name in folders + files]
        for path in paths:
            inodes[path[len(top) :]] = os.lstat(path).st_ino
        named[os.stat(folder).st_ino] = sorted({os.lstat(path).st_ino for path in paths})
    json.dump([inodes, named], sys.stdout)


def pieces(path):
    # The bytes of a sparse file but for its holes, each with its place.
    found, at = [], 0
    with open(path, "rb") as file:
        while True:
            try:
                at = os.lseek(file.fileno(), at, os.SEEK_DATA)
            except OSError:
                return found
            end = os.lseek(file.fileno(), at, os.SEEK_HOLE)
            found.append((at, os.pread(file.fileno(), end - at, at)))
            at = end


class Fuzz:
    """An image whose copies are changed, with what is there."""

    def __init__(self, read_path, image, program, manifest):
        with open(read_path, encoding="ascii") as file:
            self.inodes, named = json.load(file)
        self.named = {int(number): its for number, its in named.items()}
        self.image, self.program, self.manifest = image, program, manifest
        self.pieces = pieces(image)
        self.copy = image + ".changed"
        self.accepted = self.check(image)
        if not self.accepted.startswith("ok "):
            sys.exit(f"the image is refused: {self.accepted}")

    def db(self, image, *commands):
        words = [word for command in commands for word in ("-c", command)]
        done = subprocess.run(["xfs_db", "-x", *words, image], stdout=subprocess.PIPE, stderr=subprocess.STDOUT, check=False)
        return done.stdout.decode("latin-1")

    def block(self, number, at, fork="-d"):
        # The block that a file block of an inode is.
        mapped = self.db(self.image, f"inode {number}", f"bmap {fork}")
        for first, block, count in re.findall(r"offset (\d+) startblock (\d+) .* count (\d+)", mapped):
            if int(first) <= at < int(first) + int(count):
                return int(block) + at - int(first)
        sys.exit(f"inode {number} has no file block {at}")

    def shown(self, image, place, field):
        return self.db(image, *place, f"print {field}").strip()

    def change(self, *commands):
        # What the program tells of a copy with a change, and whether there is one.
        subprocess.run(["cp", "--sparse=always", self.image, self.copy], check=True)
        said = self.db(self.copy, *commands)
        return self.check(self.copy), pieces(self.copy) != self.pieces, said

    def check(self, image):
        words = [self.program, "check", image, self.manifest]
        try:
            done = subprocess.run(words, stdout=subprocess.PIPE, stderr=subprocess.PIPE, timeout=SECONDS, check=False)
        except subprocess.TimeoutExpired:
            return f"no answer after {SECONDS} s"
        told = done.stdout.decode("latin-1")
        if done.returncode not in ANSWERS or not ANSWERS[done.returncode].fullmatch(told):
            return f"status {done.returncode} and {told!r}"
        return told.strip()

    def lost(self, number, rule, block=0):
        # What is told where a directory breaks a rule, and so its entries don't count: what they name has other links.
        first = min([number, *self.named.get(number, [])])
        return wanted(rule, number, block) if first == number else wanted(12, first)


def wanted(rule, number, block=0):
    return f"image rule {rule} inode {number} block {block}"


# ---- by hand: (place, field, value, what is to be told) of each change, which leaves the checksum right


class Hand:
    """The table of changes by hand, by the inodes that are changed."""

    def __init__(self, fuzz):
        self.fuzz = fuzz
        at = {path.strip("/"): number for path, number in fuzz.inodes.items()}
        self.root, self.short = at[""], at["short"]
        self.block, self.leaf, self.node = at["block"], at["leaf"], at["node"]
        self.few, self.some, self.many = (at[f"node/{path}"] for path in ("few", "some", "many"))
        self.noted, self.file, self.other = (at[f"block/{path}"] for path in ("noted", "file-0000", "file-0001"))
        self.tiny, self.next = at["short/file-0000"], at["short/file-0001"]

    def table(self):
        return [
            *self.of_the_image(),
            *self.of_inodes(),
            *self.of_blocks_and_sizes(),
            *self.of_short_form(),
            *self.of_data_blocks(),
            *self.of_entries(),
            *self.of_leaf_entries(),
            *self.of_trees(),
            *self.of_attributes(),
            *self.of_records(),
            *self.of_nothing(),
        ]

    def of_the_image(self):
        superblock, first = ["sb 0"], self.fuzz.block(self.leaf, 0)
        return [
            (superblock, "blocksize", 8192, wanted(1, 0)),
            (superblock, "agcount", 3, wanted(1, 0)),
            (superblock, "features_incompat", 0x8B | 16, wanted(1, 0)),
            (superblock, "rootino", self.few, wanted(5, 0)),
            (inode(self.root), "core.mode", "0100755", wanted(5, 0)),
            (inode(self.block), "u3.bmx[0].startblock", first, wanted(9, 0)),
            (inode(self.block), "u3.bmx[0].startblock", self.block // 8, wanted(9, 0)),
            (inode(self.some), "a.bmx[0].startblock", first, wanted(9, 0)),
        ]

    def of_inodes(self):
        lost = self.fuzz.lost
        return [
            (inode(self.few), "core.magic", 0x494F, wanted(10, self.few)),
            (inode(self.short), "core.version", 2, lost(self.short, 10)),
            (inode(self.file), "core.version", 2, wanted(10, self.file)),
            (inode(self.file), "v3.inumber", self.file + 1, wanted(10, self.file)),
            (inode(self.leaf), "core.format", 3, lost(self.leaf, 11)),
            (inode(self.some), "core.aformat", 3, wanted(11, self.some)),
            (inode(self.few), "core.forkoff", 0, wanted(11, self.few)),
            (inode(self.few), "core.nlinkv2", 9, wanted(12, self.few)),
            (inode(self.short), "core.nlinkv2", 2, wanted(12, self.short)),
            (inode(self.root), "core.nlinkv2", 7, wanted(12, self.root)),
        ]

    def of_blocks_and_sizes(self):
        lost = self.fuzz.lost
        return [
            (inode(self.leaf), "u3.bmx[0].startblock", 0, lost(self.leaf, 13)),
            (inode(self.leaf), "u3.bmx[0].extentflag", 1, lost(self.leaf, 13)),
            (inode(self.node), "u3.bmx[1].blockcount", 4, lost(self.node, 13)),
            (inode(self.block), "core.nblocks", 2, wanted(14, self.block)),
            (inode(self.node), "core.nblocks", 2, wanted(14, self.node)),
            (inode(self.short), "core.size", 400, lost(self.short, 15)),
            (inode(self.block), "core.size", 8192, lost(self.block, 15)),
            (inode(self.node), "core.size", 4096, lost(self.node, 15)),
        ]

    def of_short_form(self):
        place, lost = inode(self.short), self.fuzz.lost
        return [
            (place, "u3.sfdir3.hdr.count", 7, lost(self.short, 16)),
            (place, "u3.sfdir3.list[0].offset", 0x61, lost(self.short, 16)),
            (place, "u3.sfdir3.list[0].filetype", 0, lost(self.short, 16)),
            (place, "u3.sfdir3.list[0].filetype", 2, lost(self.short, 21)),
            (place, "u3.sfdir3.list[0].inumber.i4", self.other + 8000, lost(self.short, 21)),
            (place, "u3.sfdir3.list[0].inumber.i4", self.next, wanted(12, self.tiny)),
            (place, "u3.sfdir3.list[0].name", '"fi/e-0000"', lost(self.short, 21)),
            (place, "u3.sfdir3.list[0].name", '"file-0001"', lost(self.short, 21)),
            (place, "u3.sfdir3.list[0].name", '"File-0000"', wanted(27, self.tiny)),
            (place, "u3.sfdir3.hdr.parent.i4", self.block, wanted(22, self.short)),
        ]

    def of_data_blocks(self):
        def told(number, at=0):
            return self.fuzz.lost(number, 17, self.fuzz.block(number, at))

        return [
            (data(self.block), "bhdr.hdr.magic", 0x58444433, told(self.block)),
            (data(self.block), "bhdr.hdr.owner", self.leaf, told(self.block)),
            (data(self.block), "bhdr.bestfree[0].length", 8, told(self.block)),
            (data(self.block), "bu[0].name", '"x"', told(self.block)),
            (data(self.leaf), "du[5].tag", 8, told(self.leaf)),
            (data(self.leaf), "du[2].freetag", 1, told(self.leaf)),
            (data(self.leaf, 1), "dhdr.hdr.bno", 8, told(self.leaf, 1)),
            (data(self.node, 2), "du[5].namelen", 0, told(self.node, 2)),
        ]

    def of_entries(self):
        lost = self.fuzz.lost
        return [
            (data(self.block), "bu[0].inumber", self.leaf, wanted(22, self.block)),
            (data(self.block), "bu[1].inumber", self.leaf, wanted(22, self.block)),
            (data(self.node), "du[1].inumber", self.leaf, wanted(22, self.node)),
            (inode(self.root), "u3.sfdir3.list[1].inumber.i4", self.root, wanted(23, self.root)),
            (data(self.block), "bu[2].inumber", 8, lost(self.block, 21)),
            (data(self.block), "bu[2].inumber", self.other, wanted(12, min(self.file, self.other))),
            (data(self.block), "bu[2].filetype", 3, lost(self.block, 21)),
            (data(self.block), "bu[2].name", '"file-9999"', lost(self.block, 19)),
            (data(self.leaf), "du[3].name", '"file-9999"', lost(self.leaf, 19)),
        ]

    def of_leaf_entries(self):
        lost, block = self.fuzz.lost, self.fuzz.block
        own, single = block(self.block, 0), block(self.leaf, LEAVES)
        leaf = data(self.leaf, LEAVES)
        return [
            (data(self.block), "btail.stale", 1, lost(self.block, 18, own)),
            (data(self.block), "bleaf[3].hashval", 1, lost(self.block, 18, own)),
            (data(self.block), "bleaf[1].hashval", 0x1730, lost(self.block, 19)),
            (leaf, "lents[4].hashval", 1, lost(self.leaf, 18, single)),
            (leaf, "lhdr.stale", 1, lost(self.leaf, 18, single)),
            (leaf, "lhdr.info.hdr.forw", 1, lost(self.leaf, 18, single)),
            (leaf, "lents[1].hashval", 0x1730, lost(self.leaf, 19)),
            (leaf, "lents[3].address", 0x400, lost(self.leaf, 19)),
            (leaf, "lbests[1]", 8, lost(self.leaf, 20)),
        ]

    def of_trees(self):
        # Of a node the first child is told where that isn't as the node says.
        lost, block = self.fuzz.lost, self.fuzz.block
        root, first, last = data(self.node, LEAVES), LEAVES + 2, LEAVES + 1
        return [
            (root, "nhdr.level", 2, lost(self.node, 18, block(self.node, first))),
            (root, "nbtree[0].hashval", 0xBBCEA7FE, lost(self.node, 18, block(self.node, first))),
            (data(self.node, last), "lhdr.info.hdr.back", first, lost(self.node, 18, block(self.node, last))),
            (data(self.node, INDEX), "fbests[1]", 0, lost(self.node, 20)),
            (data(self.node, INDEX), "fhdr.nused", 1, lost(self.node, 20)),
            (data(self.node, INDEX), "fhdr.firstdb", 2016, lost(self.node, 20)),
        ]

    def of_attributes(self):
        def told(number, at=0):
            return wanted(25, number, self.fuzz.block(number, at, "-a"))

        return [
            (inode(self.few), "a.sfattr.hdr.totsize", 67, wanted(24, self.few)),
            (inode(self.few), "a.sfattr.list[0].valuelen", 11, wanted(24, self.few)),
            (attributes(self.some), "hdr.usedbytes", 736, told(self.some)),
            (attributes(self.some), "entries[2].hashval", 0xA5DFAE94, told(self.some)),
            (attributes(self.some), "entries[2].nameidx", 80, told(self.some)),
            (attributes(self.some), "nvlist[0].parent_dir.inumber", self.leaf, told(self.some)),
            (attributes(self.some), "nvlist[0].name", '"somf"', told(self.some)),
            (attributes(self.noted), "nvlist[1].name", '"smelt"', told(self.noted)),
            (attributes(self.many), "hdr.level", 3, told(self.many, 1)),
            (attributes(self.many, 1), "hdr.info.hdr.forw", 3, told(self.many, 9)),
        ]

    def of_records(self):
        named = self.fuzz.named
        return [
            (attributes(self.some), "entries[0].incomplete", 1, wanted(26, self.some)),
            (inode(self.few), "a.sfattr.list[1].name", '"few-0001"', wanted(26, self.few)),
            (inode(self.few), "a.sfattr.list[1].name", '"few/0000"', wanted(26, self.few)),
            (inode(self.few), "a.sfattr.list[0].parent", 0, wanted(27, self.few)),
            (inode(self.few), "a.sfattr.list[0].name", '"fex"', wanted(27, self.few)),
            (inode(self.few), "a.sfattr.list[0].parent_dir.inumber", self.leaf, wanted(27, self.few)),
            (inode(self.few), "a.sfattr.list[0].parent_dir.gen", 1, wanted(27, self.few)),
            (inode(self.short), "a.sfattr.list[0].parent_dir.inumber", self.leaf, wanted(27, self.short)),
            (attributes(self.some), "nvlist[0].parent_dir.gen", 1, wanted(27, self.some)),
            (inode(self.block), "core.gen", 1, wanted(27, named[self.block][0])),
            (inode(self.root), "core.gen", 1, wanted(27, named[self.root][0])),
        ]

    def of_nothing(self):
        # What no rule looks at.
        accepted = self.fuzz.accepted
        return [
            (inode(self.few), "core.gen", 1, accepted),
            (inode(self.few), "core.nblocks", 1, accepted),
            (inode(self.few), "core.size", 1, accepted),
            (["sb 0"], "icount", 1, accepted),
        ]


def inode(number):
    return [f"inode {number}"]


def data(number, at=0):
    return [f"inode {number}", f"dblock {at}"]


def attributes(number, at=0):
    return [f"inode {number}", f"ablock {at}"]


def of_each(counted):
    # `5 ok, 7 of rule 12, ..`
    rules = sorted((int(rule.split()[-1]), count) for rule, count in counted.items() if rule.startswith("image rule "))
    others = [f"{count} {told}" for told, count in counted.items() if not told.startswith("image rule ")]
    return ", ".join(others + [f"{count} of rule {rule}" for rule, count in rules])


def hand(fuzz):
    wrong, rules = 0, collections.Counter()
    for place, field, value, answer in Hand(fuzz).table():
        before = fuzz.shown(fuzz.image, place, field)
        told, differs, said = fuzz.change(*place, f"write -d {field} {value}")
        after = fuzz.shown(fuzz.copy, place, field)
        if told == answer and differs and before != after:
            rules[told.split(" inode")[0]] += 1
            continue
        wrong += 1
        print(f"{' '.join(place)}: {field} = {value}: '{told}', where '{answer}' is wanted")
        print(f"  {before} -> {after}\n  {said.strip()}")
    print(f"{rules.total()} changes by hand are told as wanted: {of_each(rules)}")
    return wrong


# ---- by chance


def places(fuzz):
    # Of each place its commands, what a wrong checksum is told as, the fields at which no rule looks, and those at which Linux
    # does.
    at = {path.strip("/"): number for path, number in fuzz.inodes.items()}
    return [
        (["sb 0"], wanted(1, 0), IGNORED_OF_SUPERBLOCKS, "()"),
        *inode_places(fuzz, at),
        *data_places(fuzz, at),
        *attribute_places(fuzz, at),
    ]


def inode_places(fuzz, at):
    for path in ("block", "leaf", "node"):
        yield inode(at[path]), fuzz.lost(at[path], 10), "()", LOOSE_OF_FORKS
    yield inode(at["short"]), fuzz.lost(at["short"], 10), r"v3\.nrext64", LOOSE_OF_BOTH_FORKS
    for path in ("short/inner", "leaf/inner"):
        yield inode(at[path]), fuzz.lost(at[path], 10), r"core\.gen|v3\.nrext64", LOOSE_OF_BOTH_FORKS
    for path in ("node/some", "node/many", "block/noted"):
        yield inode(at[path]), wanted(10, at[path]), IGNORED_OF_FILES, "()"
    for path in ("node/few", "block/link", "block/kind-0", "block/kind-3", "reserve"):
        yield inode(at[path]), wanted(10, at[path]), IGNORED_OF_FILES, LOOSE_OF_FORKS


def data_places(fuzz, at):
    for path, rule, first, last in (
        ("block", 17, 0, 0),
        ("leaf", 17, 0, 1),
        ("node", 17, 0, 4),
        ("leaf", 18, LEAVES, LEAVES),
        ("node", 18, LEAVES, LEAVES + 3),
        ("node", 20, INDEX, INDEX),
    ):
        for number in range(first, last + 1):
            block = 0 if rule == 20 else fuzz.block(at[path], number)
            yield data(at[path], number), fuzz.lost(at[path], rule, block), "()", "()"


def attribute_places(fuzz, at):
    for path, last in (("node/some", 0), ("node/many", 8), ("block/noted", 0)):
        more = r"entries\[\d+\]\.incomplete" if path == "block/noted" else "()"
        for number in range(last + 1):
            told = wanted(25, at[path], fuzz.block(at[path], number, "-a"))
            yield attributes(at[path], number), told, more, "()"


def fields_of(fuzz, place):
    # The fields of a place, as `print` shows them, by their names without indices: of an array each part of each element.
    found = collections.defaultdict(list)
    for line in fuzz.db(fuzz.image, *place, "print").splitlines():
        match = re.match(r"([\w.\[\]]+?)(?:\[(\d+)-(\d+)\])? = (?:\[([\w,]+)\])?", line)
        if not match:
            continue
        name, low, high, parts = match.groups()
        stems = [name] if low is None else [f"{name}[{k}]" for k in range(int(low), int(high) + 1)]
        for field in (f"{stem}.{part}" if part else stem for stem in stems for part in (parts or "").split(",")):
            found[re.sub(r"\[\d+\]", "", field)].append(field)
    return found


def complaint(told, answer, is_right, is_ignored, live):
    # What is wrong of an answer.
    if not re.match("ok |image |manifest ", told):
        return "no answer"
    if not is_right and told != answer:
        return f"'{answer}' is wanted of a wrong checksum"
    if is_right and told.startswith("ok ") and not is_ignored:
        return "a rule looks at it"
    number = re.search(r" inode (\d+) ", told)
    return "no live inode" if number and int(number[1]) not in live else None


def chance(fuzz):
    source = random.Random(SEED)
    found = [(*place, fields_of(fuzz, place[0])) for place in places(fuzz)]
    # Those of the superblock are live where it doesn't name them.
    own = re.findall(r"= (\d+)", fuzz.db(fuzz.image, "sb 0", "print rbmino rsumino"))
    live = {0, *fuzz.inodes.values(), *map(int, own)}
    wrong, counted, loosely = 0, collections.Counter(), collections.Counter()
    while counted.total() < CHANGES:
        place, answer, more, loose, fields = source.choice(found)
        group = source.choice(sorted(fields))
        field, flag, operation = source.choice(fields[group]), source.choice(["-c", "-d", "-d"]), source.choice(OPERATIONS)
        told, differs, _ = fuzz.change(*place, f"fuzz {flag} {field} {operation}")
        if not differs:
            continue
        counted[told.split(" inode")[0]] += 1
        is_loose = re.fullmatch(f"{LOOSE_OF_ATTRIBUTES}|{loose}", field)
        is_ignored = is_loose or re.fullmatch(f"({IGNORED}|{more}) .*|{IGNORED_IN_PART}", f"{field} {operation}")
        loosely[group] += 1 if is_loose and told.startswith("ok ") else 0
        if reason := complaint(told, answer, flag == "-d", is_ignored, live):
            wrong += 1
            print(f"{' '.join(place)}: fuzz {flag} {field} {operation}: '{told}': {reason}")
    print(f"{CHANGES} changes by chance: {of_each(counted)}")
    print("accepted, though Linux refuses them:", ", ".join(f"{count} of {group}" for group, count in (+loosely).items()))
    return wrong


if __name__ == "__main__":
    match sys.argv[1:]:
        case ["fill", top]:
            fill(top)
        case ["read", top]:
            read(top)
        case ["hand", *words]:
            sys.exit(1 if hand(Fuzz(*words)) else 0)
        case ["chance", *words]:
            sys.exit(1 if chance(Fuzz(*words)) else 0)
