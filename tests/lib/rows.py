"""Runs a program on the rows of tables that stand as raw literals in .rt files, `const SOME_ROWS: &str = r"..";`.

    rows.py PROGRAM MAKER FILE..

runs each row's words where IMAGE and MANIFEST are files as MAKER makes them (`MAKER IMAGE WORDS MANIFEST`), and compares the exit
status and standard output. It says how many rows are as wanted, or shows the first that isn't and ends with status 1.

The form of a row is explained at the head of crates/xn_rows/src/lib.rt.
"""

import re
import subprocess
import sys

TABLE = re.compile(r'const \w*ROWS: &str = r"([^"]*)";')
BRACES = re.compile(r"\{(?:([^{}*]*)\*(\d+)|(_?))\}")


def rows(path):
    # The lines of a file's tables that are rows, each with its number in the file.
    with open(path, encoding="utf-8") as file:
        text = file.read()
    for table in TABLE.finditer(text):
        first = text.count("\n", 0, table.start(1)) + 1
        for number, line in enumerate(table[1].split("\n"), first):
            if line.strip() and not line.startswith("#"):
                yield number, line


def word(text):
    return BRACES.sub(lambda m: m[1] * int(m[2]) if m[2] else m[3].replace("_", " "), text)


def outcome(status, told):
    return f"status {status}\n{told}"


def wanted(answer):
    status, _, told = answer.partition(" ")
    return outcome(status, "".join(f"{line}\n" for line in told.split(" / ") if line))


def run(program, words):
    done = subprocess.run([program, *map(word, words)], stdout=subprocess.PIPE, stderr=subprocess.PIPE, check=False)
    return outcome(done.returncode, done.stdout.decode("ascii"))


def main(program, maker, paths):
    made, count = None, 0
    for path in paths:
        for number, line in rows(path):
            words, image, answer = (field.strip() for field in line.split("|"))
            if "fails:" in image:
                continue
            if image != made:
                subprocess.run([maker, "IMAGE", image, "MANIFEST"], check=True)
                made = image
            told = run(program, words.split())
            if told != wanted(answer):
                sys.exit(f"{path}:{number}: {line}\n{told}")
            count += 1
    if count == 0:
        sys.exit("there are no rows")
    print(f"{count} rows are as wanted")


if __name__ == "__main__":
    main(sys.argv[1], sys.argv[2], sys.argv[3:])
