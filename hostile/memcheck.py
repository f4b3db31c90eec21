"""Runs every command under valgrind's memcheck, which is to find nothing: no bad access, no unset byte, nothing lost.

    PULL=.. python3 memcheck.py

PULL is the program's file alone. Prints a line a command, and ends with 1 where something was found, or where a run came
to another status or other bytes than without valgrind."""
import os
import sys

from machine import COMMANDS, Folder

FOUND = 97
VALGRIND = f"valgrind -q --error-exitcode={FOUND} --leak-check=full --errors-for-leak-kinds=all "


def main():
    plain = os.environ["PULL"]
    wrong = 0
    for command in COMMANDS:
        folder = Folder()
        folder.fill(command)
        before = folder.all()
        wanted = folder.run(command.words)
        folder.restore(before)
        os.environ["PULL"] = VALGRIND + plain
        came = folder.run(command.words, timeout=1200)
        os.environ["PULL"] = plain
        wrong += came != wanted
        print(f"{command}: {'nothing' if came == wanted else came}", flush=True)
        folder.remove()
    sys.exit(1 if wrong else 0)


main()
