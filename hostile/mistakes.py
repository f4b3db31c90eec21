"""Runs each file of mistakes/ and compares the status, the first line and the message that names the cause with the table
of mistakes/README.md, with PULL naming the program. At status 3 standard error is to say the first line of `lint`.
Prints what differs, and ends with status 1 where anything does."""

import os
import re
import shlex
import subprocess
import sys

ROW = re.compile(r"^\| (\d\d-[\w.-]+) \| .* \| (\d+) \| (.*?) \| (.*?) \|$")
# the statuses for which a line of `lint` names the cause; for the others standard error does
LINTED = {0, 3, 4}


def words_of(name):
    """The words that a file of mistakes/ is run with."""
    if name.endswith(".words"):
        with open(name, encoding="utf-8") as file:
            return shlex.split(file.read())
    return ["run", name]


def ask(words):
    """The status of the program, what it writes, and what it writes to standard error."""
    program = os.environ["PULL"]
    ran = subprocess.run([program, *words], stdout=subprocess.PIPE, stderr=subprocess.PIPE, check=False)
    return ran.returncode, ran.stdout.decode(errors="replace"), ran.stderr.decode(errors="replace")


def faults_of(name, status, line, message):
    """What differs from the row of a file."""
    came, out, err = ask(words_of(name))
    first = out.split("\n", 1)[0]
    if came != status or (status != 0 and first != line.strip("`")):
        yield f"status {came}, {first!r}"
    if status not in LINTED:
        if message.strip("`") not in err:
            yield f"standard error says {err!r}"
        return
    came, out, _ = ask(["lint", name])
    if came != status:
        yield f"lint ends with status {came}"
    lines = out.split("\n")
    # standard error says on which line of the file it stands, beside the names or in brackets of its own
    told = re.sub(r" \(line \d+\)|, line \d+(?=\))", "", err)
    if status == 3 and lines[0].removeprefix("plant: ") not in told:
        yield f"standard error says {err!r}"
    if message == "none":
        if lines != ["no fault", ""]:
            yield f"lint writes {lines}"
    elif message.strip("`") not in lines:
        yield f"lint writes {lines}"


def main():
    os.environ["PULL"] = os.path.abspath(os.environ["PULL"])
    os.chdir(os.path.join(os.path.dirname(os.path.abspath(__file__)), "mistakes"))
    with open("README.md", encoding="utf-8") as file:
        rows = [it.groups() for it in map(ROW.match, file.read().splitlines()) if it]
    wrong = 0
    for name, status, line, message in rows:
        for fault in faults_of(name, int(status), line, message):
            print(f"{name}: {fault}")
            wrong += 1
    listed = {it[0] for it in rows}
    missing = [it for it in os.listdir(".") if it.endswith((".toml", ".words")) and it not in listed]
    for name in missing:
        print(f"{name}: not in README.md")
    print(f"{len(rows)} mistakes, {wrong} differ, {len(missing)} not listed")
    return 1 if wrong or missing or not rows else 0


sys.exit(main())
