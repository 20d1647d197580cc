"""damage.py PROGRAM SITE LISTING QUOTED CALENDAR ASKED: fronts of a file and files with a byte changed or lines in another order are told
in words. Compares and checks such listings with the site; quotes such sites, and the site with such words in place of QUOTED; asks such
calendars, and the calendar with such words in place of ASKED."""
import random
import subprocess
import sys

program, site, listing, quoted, calendar, asked = sys.argv[1:]
random.seed(1)


def contents(name):
    with open(name, "rb") as file:
        return file.read()


def damaged(whole, step):
    for end in range(0, len(whole), step):
        yield whole[:end]
    for _ in range(30):
        at = random.randrange(len(whole))
        yield whole[:at] + bytes([random.choice(b"0 9\nx\r\0\xff-")]) + whole[at + 1:]
    for _ in range(10):
        lines = whole.splitlines(True)
        random.shuffle(lines)
        yield b"".join(lines)


def is_result(command, said):
    if command == "quote":
        return said.startswith(b"standard input: what the node costs in a span of ") and said.count(b"\nWith ") == 3
    if command == "hours":
        return said.startswith(b"standard input: which plan is in force; ") and (b"\nplan " in said)
    return said in (b"same\n", b"plan and table pass\n")


def is_told(arguments, text):
    ran = subprocess.run([program, *arguments], input=text, capture_output=True)
    if ran.returncode == 0:
        return is_result(arguments[0], ran.stdout) and ran.stderr == b""
    said = ran.stdout + ran.stderr
    return ran.returncode in (1, 2) and len(said) > 0 and b"Sanitizer" not in said and not is_result(arguments[0], ran.stdout)


runs = [((("compare", "check")[i % 2], site, "-"), text) for i, text in enumerate(damaged(contents(listing), 5))]
for command, file, words in ("quote", site, quoted), ("hours", calendar, asked):
    runs += [((command, "-", *words.split()), text) for text in damaged(contents(file), 5)]
    given = damaged(words.encode(), 1)
    runs += [((command, "-", *text.split(b" ")), contents(file)) for text in given if b"\0" not in text]
failures = [run for run in runs if not is_told(*run)]
for arguments, text in failures:
    print("program: not told:", arguments, text)
sys.exit(1 if failures else 0)
