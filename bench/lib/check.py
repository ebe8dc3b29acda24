"""Makes directories of 500 files each, and times who checks their image.

    check.py fill MOUNT DIRECTORIES             makes them
    check.py run PROGRAM IMAGE DIRECTORIES      prints a line of numbers
    check.py table LINES                        prints the lines as a table, and ends with status 1 where a number is missed
"""

import os
import sys

from measure import OUTPUT, RUNS, peak_of, run

FILES = 500
COLUMNS = ["Entries", "`check`, s", "`xfs_repair -n`, s", "ratio", "`check`'s peak memory, MB", "bytes an entry"]


def fill(top, directories):
    for at in range(directories):
        folder = os.path.join(top, f"directory-{at:03}")
        os.mkdir(folder)
        for number in range(FILES):
            os.close(os.open(os.path.join(folder, f"file-{number:03}"), os.O_CREAT | os.O_WRONLY))


def measure(program, image, directories):
    words = [program, "check", image, "manifest"]
    peak = peak_of(words)
    entries = directories * (FILES + 1)
    wanted = f"ok inodes {entries + 1} directories {directories + 1} entries {entries} pending 0 free 0\n"
    checked, repaired = [], []
    for _ in range(RUNS):
        checked.append(run(words)[0])
        with open(OUTPUT, encoding="ascii") as text:
            if (told := text.read()) != wanted:
                sys.exit(f"check tells {told}")
        # It speaks of the folder of the image on standard error.
        repaired.append(run(["bash", "-c", 'exec "$@" 2>refused', "-", "xfs_repair", "-n", "-f", image])[0])
    print(entries, min(checked), min(repaired), peak)


def table(path):
    with open(path, encoding="ascii") as lines:
        rows = [list(map(float, line.split())) for line in lines]
    print(f"| {' | '.join(COLUMNS)} |")
    print("|" + "---:|" * len(COLUMNS))
    for entries, checked, repaired, peak in rows:
        ratio = checked / repaired
        print(f"| {entries:,.0f} | {checked:.3f} | {repaired:.3f} | {ratio:.2f} | {peak / 1e6:.1f} | {peak / entries:,.0f} |")
    print()
    few, many = rows
    checks = [
        ("check to xfs_repair -n, 400 directories", many[1] / many[2], 0.25),
        ("check of 400 directories to check of 40", many[1] / few[1], 12),
        ("bytes of memory an entry, 400 directories", many[3] / many[0], 300),
    ]
    for what, found, limit in checks:
        print(f"{what}: {found:.2f}, at most {limit} is wanted{'' if found <= limit else ': MISSED'}")
    if any(found > limit for _, found, limit in checks):
        sys.exit(1)


if __name__ == "__main__":
    match sys.argv[1:]:
        case ["fill", top, directories]:
            fill(top, int(directories))
        case ["run", program, image, directories]:
            measure(program, image, int(directories))
        case ["table", path]:
            table(path)
