"""Refuses each request for memory of a run in turn, and lets each of its calls on files fail, be short, or be its last.

    PULL=.. python3 refused.py memory [WORD]
    PULL=.. python3 refused.py calls [WORD]

The commands are those of which WORD is a part, or all. `memory` tries each with request 1, 2, .. for memory refused, once
that one alone and once that one and all later ones. The run then ends with status 9 and the line `memory`, or as without
it; or with 5 or 12 and its line, or with 6, where the machine refused a file because memory ran out. `main` collects the words
before anything can be written, with the first requests (`requests_of_main`): where one of these is refused, and only there,
status 9 may come without its line. `calls` tries every command with call 1, 2, .. on a file failing with each of some
errors, then short, then as the last thing that the program does, with half of a write done or with none. A failing call
gives 5, 6 or 12, or nothing changes; a short one changes nothing; and after the last one, `resume --slots` gives the report
of the undisturbed run or `nothing saved`. In every case no file changes but the one that the command writes, and the
checkpoint of a stop is as before, or the new one whole. Prints a line a command; each run that ends in another way is
a line that begins with WRONG, and the status is then 1."""
import os
import sys

import machine
from machine import COMMANDS, CRASHED, SLOTS, Folder, is_prefix

ERRORS = ["EIO", "ENOSPC", "EINTR", "EAGAIN"]
wrong = 0


def tell(command, order, status, out, why):
    global wrong
    wrong += 1
    print(f"WRONG {command}: {order}: status {status}: {why}: {out[:200]!r}", flush=True)


def requests_of_main(words):
    """How many requests main makes for this many words, at most 7: one for each, for the program's name before them and for
    the look behind the last; one or two for their list, which has room for 4 and then for 8; one for the words alone."""
    return words + 2 + (1 if words + 1 <= 4 else 2) + 1


class Trial:
    """A command, what it finds, and how it ends when nothing fails."""

    def __init__(self, command, shim):
        self.command, self.shim = command, shim
        self.folder = Folder()
        self.folder.fill(command)
        self.before = self.folder.all()
        self.status, self.out = self.folder.run(command.words, shim)
        self.requests, self.letters = self.folder.counts()
        self.after = self.folder.all()
        self.names = [n for n in self.before if n != SLOTS] + [n for n in self.after if n not in self.before and n != SLOTS]
        if command.makes_slots():
            self.report = self.folder.run(command.words[:2])[1]

    def run(self, order):
        self.folder.restore(self.before)
        status, out = self.folder.run(self.command.words, self.shim, order)
        return status, out, self.folder.all()

    def is_same(self, status, out, files):
        return status == self.status and out == self.out and files == self.after

    def is_want_of_words(self, number, status, out):
        """Whether it is 9 without its line, of a request that main makes for the words."""
        return (status, out) == (9, b"") and number <= requests_of_main(len(self.command.words))

    def is_refusal(self, status, out):
        """Whether it is 5 with a file of the command, or 12 of a command with slots."""
        if status == 5:
            return out in [f"store: {name}\n".encode() for name in self.names]
        return status == 12 and out == b"disk\n" and "--slots" in self.command.words

    def keeps_files(self, status, files):
        """Whether no file changed but the one that is written, and that one as it may be: the old one or the new one, whole,
        since it is renamed. A run that is gone may leave the file beside it."""
        written = self.command.writes
        beside = f"{written}.new"
        for name in set(files) | set(self.before):
            if name == beside and status == CRASHED:
                if not is_prefix(files[name], self.after[written]):
                    return False
            elif name != written and files.get(name) != self.before.get(name):
                return False
        if written is None or written == SLOTS:
            return True
        held = files.get(written)
        if held == self.before.get(written):
            return True
        return status in (0, 5, 6, CRASHED) and held == self.after[written]

    def resumes(self):
        """Whether the slots give the report, or hold nothing where they held nothing before."""
        status, out = self.folder.run(["resume", self.command.words[1], "--slots"])
        if status == 0:
            return out == self.report
        return (status, out) == (14, b"nothing saved\n") and SLOTS not in self.before

    def end(self):
        self.folder.remove()


def refuse_memory(trial):
    """Refuses each request for memory in turn. Answers how many runs there were, and how many ended with each status."""
    runs = {}
    for number in range(1, trial.requests + 1):
        for way in "memory", "starve":
            order = f"{way} {number}"
            status, out, files = trial.run(order)
            runs[status] = runs.get(status, 0) + 1
            fits = (trial.is_same(status, out, files) or (status == 9 and out == b"memory\n")
                    or trial.is_want_of_words(number, status, out) or trial.is_refusal(status, out) or status == 6)
            if not fits:
                tell(trial.command, order, status, out, "no answer")
            if not trial.keeps_files(status, files):
                tell(trial.command, order, status, out, "a file changed")
            if trial.command.makes_slots() and not trial.resumes():
                tell(trial.command, order, status, out, "the slots are lost")
    return runs


def fits_failure(trial, status, out, files):
    """Whether a run of which a call failed ended as it may."""
    if trial.is_same(status, out, files) or trial.is_refusal(status, out):
        return True
    return status == 6 and (is_prefix(out, trial.out) or out in (b"disk", b""))


def fail_calls(trial):
    """Lets each call fail, be short, and be the last. Answers how many runs ended with each status."""
    runs = {}
    for number in range(1, len(trial.letters) + 1):
        for way in ERRORS + ["short", "crash", "torn"]:
            order = f"{way} {number}"
            status, out, files = trial.run(order)
            runs[status] = runs.get(status, 0) + 1
            letter = trial.letters[number - 1]
            if way in ("crash", "torn"):
                fits = status == CRASHED and is_prefix(out, trial.out)
            elif way == "short":
                fits = trial.is_same(status, out, files)
            else:
                fits = fits_failure(trial, status, out, files)
            if not fits:
                tell(trial.command, order + " " + letter, status, out, "no answer")
            if not trial.keeps_files(status, files):
                tell(trial.command, order + " " + letter, status, out, "a file changed")
            if trial.command.makes_slots() and not trial.resumes():
                tell(trial.command, order + " " + letter, status, out, "the slots are lost")
    return runs


def main():
    if sys.argv[1:2] not in (["memory"], ["calls"]) or len(sys.argv) > 3:
        sys.exit(__doc__)
    word = sys.argv[2] if len(sys.argv) > 2 else ""
    shim = machine.build_shim()
    total = 0
    for command in [command for command in COMMANDS if word in str(command)]:
        trial = Trial(command, shim)
        runs = refuse_memory(trial) if sys.argv[1] == "memory" else fail_calls(trial)
        count = sum(runs.values())
        total += count
        by_status = ", ".join(f"{runs[status]} with {status}" for status in sorted(runs))
        what = f"{trial.requests} requests" if sys.argv[1] == "memory" else f"calls {trial.letters}"
        print(f"{command} ({'with' if command.before else 'without'} earlier state): {what}, "
              f"{count} runs: {by_status}", flush=True)
        trial.end()
    os.remove(shim)
    print(f"{total} runs, {wrong} wrong")
    sys.exit(1 if wrong else 0)


main()
