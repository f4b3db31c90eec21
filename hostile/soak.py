"""Runs three plants a thousand times each, with 2 to 16 workers, stopped and resumed at random, and compares the bytes.

    PULL=.. python3 soak.py [RUNS] [SEED]

A turn is one of: a run to the end; a run that stops after a drawn number of firings and is resumed from its file; a run
that saves in the slots, and then is resumed from them; and such a run that is killed after a drawn time, and then
resumed. Each report is to be that of one worker. Prints a line a plant, and ends with 1 where one differs."""
import os
import random
import subprocess
import sys
import time

from machine import EXAMPLES, SLOTS, Folder, program


def drawn_plant(stages, machines, jobs):
    """A serial line under extended kanban with travel, card times, several servers and a loop."""
    draw = random.Random(stages * 1000 + machines)
    date, dates = 0, []
    for _ in range(jobs):
        date += draw.randrange(30)
        dates.append(date)
    lines = ['policy = "extended"', f"demands = {dates}", f"observe = {dates[::17]}"]
    for i in range(1, stages + 1):
        stock = draw.randrange(4)
        lines += ["[[stage]]", f'name = "s{i}"', f"stock = {stock}", f"cards = {stock + 1 + draw.randrange(4)}",
                  f"travel = {draw.randrange(9)}", f"card_time = {draw.randrange(5)}"]
        lines += [f'feeds = "s{i + 1}"'] if i < stages else []
        for j in range(1, machines + 1):
            lines += ["[[stage.machine]]", f'name = "m{j}"', f"servers = {1 + draw.randrange(3)}",
                      f"time = {1 + draw.randrange(20)}"]
    lines += ["[[loop]]", 'from = "s2"', 'to = "s5"', "cards = 24", "card_time = 3"]
    return "\n".join(lines) + "\n"


def plants():
    with open(os.path.join(EXAMPLES, "forty.toml"), encoding="utf-8") as file:
        yield "forty.toml", file.read()
    with open(os.path.join(EXAMPLES, "assembly.toml"), encoding="utf-8") as file:
        dates = [7 * n // 2 for n in range(100)]
        yield "assembly.toml", file.read().replace("demands = [0, 0, 10, 10, 20, 20]", f"demands = {dates}")
    yield "drawn.toml", drawn_plant(12, 3, 60)


class Soak:
    def __init__(self, name, text, draw):
        self.name, self.draw, self.folder, self.runs, self.stops, self.kills = name, draw, Folder(), 0, 0, 0
        self.folder.put(name, text.encode())
        started = time.time()
        status, self.report = self.run("run", name)
        self.seconds = time.time() - started
        assert status == 0, (name, status, self.report)
        self.firings = sum(1 for line in self.report.split(b"\n") if line.count(b" ") == 2
                           and not line.startswith((b"at ", b"peak ")))

    def run(self, *words):
        self.runs += 1
        return self.folder.run(list(words))

    def workers(self):
        return ["--workers", str(self.draw.randrange(2, 17))]

    def forget(self, name):
        if os.path.exists(self.folder.at(name)):
            os.remove(self.folder.at(name))

    def turn(self):
        """One turn. Answers what came that isn't the report, or nothing."""
        kind = self.draw.choice(["end", "stop", "slots", "kill"])
        return getattr(self, kind)()

    def wants_report(self, what, answer):
        return None if answer == (0, self.report) else (what, answer)

    def end(self):
        return self.wants_report("run", self.run("run", self.name, *self.workers()))

    def stop(self):
        self.forget("c.ckpt")
        n = str(self.draw.randrange(self.firings))
        answer = self.run("run", self.name, "--stop-after", n, "--save", "c.ckpt", *self.workers())
        if answer == (0, self.report):
            return None if not os.path.exists(self.folder.at("c.ckpt")) else ("stop with a file", answer)
        if answer[0] != 0 or not answer[1].startswith(b"stopped "):
            return "stop " + n, answer
        self.stops += 1
        return self.wants_report("resume after " + n, self.run("resume", self.name, "c.ckpt", *self.workers()))

    def slots(self):
        every = str(self.draw.randrange(1, self.firings))
        answer = self.run("run", self.name, "--every", every, "--slots", *self.workers())
        return self.wants_report("slots " + every, answer) or self.resume_slots("slots")

    def kill(self):
        every = str(self.draw.randrange(1, max(2, self.firings // 8)))
        words = ["run", self.name, "--every", every, "--slots"] + self.workers()
        self.runs += 1
        with subprocess.Popen(program() + words, cwd=self.folder.path, stdout=subprocess.DEVNULL) as child:
            time.sleep(self.draw.random() * 1.5 * self.seconds)
            if child.poll() is None:
                self.kills += 1
                child.kill()
        return self.resume_slots("killed")

    def resume_slots(self, what):
        answer = self.run("resume", self.name, "--slots", *self.workers())
        if answer == (14, b"nothing saved\n"):
            return None
        return self.wants_report("resume " + what, answer)


def main():
    runs = int(sys.argv[1]) if len(sys.argv) > 1 else 1000
    draw = random.Random(int(sys.argv[2]) if len(sys.argv) > 2 else 1)
    for name, text in plants():
        soak = Soak(name, text, draw)
        while soak.runs < runs:
            if draw.randrange(8) == 0:
                soak.forget(SLOTS)
            bad = soak.turn()
            if bad:
                print(f"WRONG {name}: {bad[0]}: status {bad[1][0]}: {bad[1][1][:200]!r}; files in {soak.folder.path}")
                sys.exit(1)
        print(f"{name}: {soak.firings} firings, {soak.runs} runs, of which {soak.stops} stopped and {soak.kills} "
              "were killed: the same bytes", flush=True)
        soak.folder.remove()


if __name__ == "__main__":
    main()
