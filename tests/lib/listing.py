"""Turns xfs_db's print of a directory in short form, on standard input, into the text of `xfsns list`."""

import re
import sys

from xfs_image import KINDS, escaped, name_bytes


def listing(text):
    count = int(re.search(r"^u3\.sfdir3\.hdr\.count = (\d+)$", text, re.M)[1])
    fields = {}
    for at, field, value in re.findall(r"^u3\.sfdir3\.list\[(\d+)\]\.(\w+)(?:\.i[48])? = (.*)$", text, re.M):
        fields.setdefault(int(at), {})[field] = value
    entries = []
    for entry in fields.values():
        name = name_bytes(entry["name"][1:-1])
        if len(name) != int(entry["namelen"]):
            sys.exit(f"a name of another length: {entry}")
        entries.append((name, int(entry["inumber"]), KINDS[int(entry["filetype"])]))
    if len(entries) != count:
        sys.exit(f"xfs_db printed {len(entries)} entries of {count}")
    print(f"ok {count}")
    for name, ino, kind in sorted(entries):
        print(ino, kind, escaped(name))


listing(sys.stdin.read())
