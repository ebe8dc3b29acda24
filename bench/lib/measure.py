"""Times the program and xfs_db over an image, and tells what is wanted of the numbers.

    measure.py run PROGRAM IMAGE TOLD    prints a line of numbers, of which the image has the root and TOLD what is wanted
    measure.py table LINES               prints the lines as a table, and ends with status 1 where a number is missed
"""

import os
import re
import subprocess
import sys
import time

RUNS = 5
TIME = "/usr/bin/time"
ROOT = "128"
COLUMNS = [
    "Names",
    "`list`, s",
    "`xfs_db`'s `ls`, s",
    "`list`'s peak memory, MB",
    "bytes a name beside names and text",
    "`resolve`, ms",
]
# The file that an output goes to, within the folder of the script.
OUTPUT = "output"


def run(words):
    # The seconds that it takes and the greatest memory, in bytes. A child starts with the memory of this program as its
    # greatest, which is some 10 MB.
    with open(OUTPUT, "wb") as output:
        begin = time.perf_counter()
        child = subprocess.Popen(words, stdout=output)
        _, status, used = os.wait4(child.pid, 0)
        seconds = time.perf_counter() - begin
    child.returncode = os.waitstatus_to_exitcode(status)
    if child.returncode != 0:
        sys.exit(f"status {child.returncode} of {words}")
    return seconds, used.ru_maxrss * 1024


def best_of(words):
    return min(run(words)[0] for _ in range(RUNS))


def peak_of(words):
    if not os.access(TIME, os.X_OK):
        return run(words)[1]
    run([TIME, "-f", "%M", "-o", "peak", *words])
    with open("peak", encoding="ascii") as peak:
        return int(peak.read()) * 1024


def measure(program, image, told):
    list_words = [program, "list", image, "manifest", ROOT]
    db_words = ["xfs_db", "-r", "-c", f"inode {ROOT}", "-c", "ls", image]
    # before this program takes memory itself
    peak = peak_of(list_words)
    with open(told, "rb") as text:
        wanted = text.read()
    lines = wanted.splitlines()[1:]
    names = [line.split(b" ")[2] for line in lines]
    resolve_words = [program, "resolve", image, "manifest", "/" + names[len(names) // 2].decode()]

    list_seconds = best_of(list_words)
    with open(OUTPUT, "rb") as text:
        if text.read() != wanted:
            sys.exit("list tells something else")
    db_seconds = best_of(db_words)
    with open(OUTPUT, "rb") as text:
        found = re.findall(rb"^\d+ +\d+ +regular +0x[0-9a-f]{8} +\d+ (\S+) \(good\)$", text.read(), re.M)
    if sorted(found) != names:
        sys.exit("xfs_db lists other names")
    resolve_seconds = best_of(resolve_words)
    beside = peak - sum(map(len, names)) - len(wanted)
    print(len(names), list_seconds, db_seconds, peak, beside / len(names), resolve_seconds)


def read_rows(path):
    # By the number of names: seconds of list and of xfs_db, bytes in all and a name, seconds of resolve.
    rows = {}
    with open(path, encoding="ascii") as lines:
        for line in lines:
            count, *numbers = line.split()
            rows[int(count)] = tuple(map(float, numbers))
    return rows


def table(path):
    rows = read_rows(path)
    print(f"| {' | '.join(COLUMNS)} |")
    print("|" + "---:|" * len(COLUMNS))
    for count, (listed, db, peak, beside, resolved) in rows.items():
        print(f"| {count:,} | {listed:.3f} | {db:.3f} | {peak / 1e6:.1f} | {beside:,.0f} | {1000 * resolved:.2f} |")
    print()
    (few, *_, many, most) = rows.values()
    checks = [
        ("list to xfs_db, 200,000 names", many[0] / many[1], 0.5),
        ("list of 1,000,000 names to list of 200,000", most[0] / many[0], 6),
        ("bytes of memory a name, 200,000 names", many[3], 300),
        ("bytes of memory a name, 1,000,000 names", most[3], 300),
        ("resolve among 1,000,000 names to resolve among 20", most[4] / few[4], 10),
    ]
    for what, found, limit in checks:
        print(f"{what}: {found:.2f}, at most {limit} is wanted{'' if found <= limit else ': MISSED'}")
    if any(found > limit for _, found, limit in checks):
        sys.exit(1)


if __name__ == "__main__":
    match sys.argv[1:]:
        case ["run", program, image, told]:
            measure(program, image, told)
        case ["table", path]:
            table(path)
