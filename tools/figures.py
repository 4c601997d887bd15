#!/usr/bin/env python3
"""Makes the logs and the job that docs/PERFORMANCE.md measures, and measures programs on them.

    tools/figures.py make FOLDER                 writes the inputs, 250 MB, in some minutes
    tools/figures.py time FOLDER PROGRAM OTHER   runs each command eleven times on both programs in turn

`time` prints a row for each command: the least CPU time of PROGRAM, the ratio of that to OTHER's, and PROGRAM's peak
memory. OTHER is any program that takes the same words; without it there is no ratio. Where the outputs differ, the row
says so. The inputs are drawn from fixed seeds, so they are the same each time.
"""
import os
import random
import subprocess
import sys
import tempfile
import time

RECORDS = 2_000_000
RUNS = 11
SHARED = 0x130000  # bytes of data that all harts use
REGISTERS = (5, 6, 7, 10, 11, 12, 28, 29, 30)


class Writer:
    """A log text on the way: each access gets the arcs that order it after the accesses it conflicts with."""

    def __init__(self, path, harts, version, seed):
        self.file = open(path, "w")
        self.harts = harts
        self.shift = 4 if version == 1 else 2
        self.random = random.Random(seed)
        self.counts = [0] * harts  # records of each hart
        self.seen = [[0] * harts for _ in range(harts)]  # the last record of hart u that has an arc to hart h
        self.stores = {}  # block: hart and number of its last store
        self.loads = {}  # block: the last load of each hart since then
        self.total = 0
        block = 16 if version == 1 else 4
        self.file.write(f"PLOG {version} harts {harts} block {block}\n")
        self.file.write(f"page 256 64 data\npage 1024 256 heap\npage 3840 {4 * harts} stack\n")

    def put(self, hart, text):
        self.counts[hart] += 1
        self.total += 1
        self.file.write(f"h{hart} {text}\n")

    def access(self, hart, is_store, address):
        """A load or a store of a word."""
        block = address >> self.shift
        before = {}
        if block in self.stores:
            other, number = self.stores[block]
            before[other] = number
        if is_store:
            for other, number in self.loads.pop(block, {}).items():
                before[other] = max(number, before.get(other, 0))
        seen = self.seen[hart]
        arcs = sorted((u, m) for u, m in before.items() if u != hart and m > seen[u])
        for other, number in arcs:
            seen[other] = number
        told = " < " + ",".join(f"{u}:{m}" for u, m in arcs) if arcs else ""
        kind = "st" if is_store else "ld"
        self.put(hart, f"{kind} w {self.random.choice(REGISTERS)} 8 {address:x}{told}")
        number = self.counts[hart]
        if is_store:
            self.stores[block] = (hart, number)
        else:
            self.loads.setdefault(block, {})[hart] = number

    def alert(self, hart, text):
        """An alert event, which all other harts are told of before it."""
        number = self.counts[hart] + 1
        for other in range(self.harts):
            if other != hart:
                self.put(other, f"! {hart}:{number}")
        self.put(hart, text)

    def compute(self, hart):
        draw = self.random.random()
        to, one, two = (self.random.choice(REGISTERS) for _ in range(3))
        if draw < 0.5:
            self.put(hart, f"op {to} {one} {two}")
        elif draw < 0.7:
            self.put(hart, f"im {to}")
        elif draw < 0.85:
            self.put(hart, f"mv {to} {one}")
        else:
            self.put(hart, f"br {one} {two}")


def plain_log(path):
    """Loads, stores and blocks of one hart."""
    log = Writer(path, 1, 1, 1)
    draw = log.random
    blocks = []
    at = 0x400000
    while log.total < RECORDS:
        if draw.random() < 0.001 and at < 0x4FF000:
            size = draw.randrange(16, 4096)
            log.alert(0, f"al {at:x} {size}")
            blocks.append((at, size))
            at += (size + 15) // 16 * 16
        elif blocks and draw.random() < 0.0005:
            start, size = blocks.pop(draw.randrange(len(blocks)))
            log.alert(0, f"fr {start:x} {size}")
        else:
            start, size = draw.choice(blocks) if blocks else (SHARED, 4096)
            log.access(0, draw.random() < 0.4, start + 4 * draw.randrange(size // 4))


def mixed_log(path, harts, version, seed, accesses, shared, words, turn, alert_every):
    """Turns of harts: the part `accesses` of the records are loads and stores, and the part `shared` of these goes to
    the first `words` words of data that all harts use."""
    log = Writer(path, harts, version, seed)
    draw = log.random
    taken = [False] * harts
    since = 0
    while log.total < RECORDS - 2 * harts:
        hart = draw.randrange(harts)
        for _ in range(draw.randrange(1, 2 * turn)):
            if log.total >= RECORDS - 2 * harts:
                break
            since += 1
            if since == alert_every:
                since = 0
                block = 0x400000 + hart * 0x10000
                log.alert(hart, f"{'fr' if taken[hart] else 'al'} {block:x} 4096")
                taken[hart] = not taken[hart]
            elif draw.random() < accesses:
                own = 0x100000 + hart * 0x4000
                base, count = (SHARED, words) if draw.random() < shared else (own, 2048)
                log.access(hart, draw.random() < 0.35, base + 4 * draw.randrange(count))
            else:
                log.compute(hart)


def write_job(path):
    """Eight harts that take a block, store to it and free it, over and over."""
    with open(path, "w") as file:
        file.write(
            ".harts 8\n.schedule seed 7 5\n.steps 250000\n.text\n"
            "again: li a7, 2\n li a0, 64\n ecall\n mv s0, a0\n li t0, 16\n mv t1, s0\n"
            "fill: sw t0, 0(t1)\n addi t1, t1, 4\n addi t0, t0, -1\n bnez t0, fill\n"
            " li a7, 3\n mv a0, s0\n ecall\n j again\n"
        )


LOGS = {
    "harts4.plog": (4, 1, 2, 0.5, 0.05, 2048, 20, 4000),
    "harts8.plog": (8, 1, 3, 0.5, 0.05, 2048, 20, 4000),
    "arcs8.plog": (8, 1, 4, 0.95, 1, 64, 2, 10000),
    "version2.plog": (4, 2, 5, 0.5, 0.05, 2048, 20, 4000),
    "alerts24.plog": (8, 1, 6, 0.5, 0.05, 2048, 20, 24),
    "alerts12.plog": (8, 1, 7, 0.5, 0.05, 2048, 20, 12),
}


def make(folder):
    os.makedirs(folder, exist_ok=True)
    plain_log(os.path.join(folder, "plain.plog"))
    for name, shape in LOGS.items():
        mixed_log(os.path.join(folder, name), *shape)
    write_job(os.path.join(folder, "blocks.asm"))


def commands(folder):
    examples = os.path.join(os.path.dirname(os.path.abspath(__file__)), "..", "examples")
    logs = ["plain.plog", *LOGS]
    for guard in ("addrcheck", "taintcheck", "memcheck"):
        for name in logs:
            yield f"replay {guard}", os.path.join(folder, name)
    for name in logs:
        yield "check", os.path.join(folder, name)
    yield "run", os.path.join(folder, "blocks.asm")
    yield "run", os.path.join(examples, "table.asm")


def run_once(program, words, path):
    """The CPU seconds, the peak memory in KiB by a look every two milliseconds, the status and the output."""
    peak = 0
    with open(path, "rb") as source, tempfile.TemporaryFile() as out:
        command = [program, *words.split()]
        child = subprocess.Popen(command, stdin=source, stdout=out, stderr=subprocess.DEVNULL)
        while os.waitid(os.P_PID, child.pid, os.WEXITED | os.WNOHANG | os.WNOWAIT) is None:
            peak = max(peak, memory_of(child.pid))
            time.sleep(0.002)
        _, status, used = os.wait4(child.pid, 0)
        out.seek(0)
        return used.ru_utime + used.ru_stime, peak, os.waitstatus_to_exitcode(status), out.read()


def memory_of(process):
    """The peak memory of a process so far, in KiB; 0 of one that has ended."""
    with open(f"/proc/{process}/status") as told:
        for line in told:
            if line.startswith("VmHWM:"):
                return int(line.split()[1])
    return 0


def measure(folder, programs):
    print("| Command | Input | CPU time | Ratio | Peak memory |\n|---|---|---|---|---|")
    for words, path in commands(folder):
        least = [None] * len(programs)
        said = []
        peak = 0
        for _ in range(RUNS):
            said = []
            for at, program in enumerate(programs):
                seconds, memory, status, out = run_once(program, words, path)
                least[at] = seconds if least[at] is None else min(least[at], seconds)
                peak = max(peak, memory) if at == 0 else peak
                said.append((status, out))
        ratio = f"{least[0] / least[1]:.2f}" if len(programs) > 1 and least[1] else ""
        note = "" if said.count(said[0]) == len(said) else " (the outputs differ)"
        figures = f"{least[0]:.3f} s | {ratio} | {peak // 1024} MiB"
        print(f"| `{words}` | {os.path.basename(path)}{note} | {figures} |", flush=True)


def main(words):
    if len(words) == 2 and words[0] == "make":
        make(words[1])
    elif len(words) in (3, 4) and words[0] == "time":
        measure(words[1], words[2:])
    else:
        sys.exit(__doc__)


main(sys.argv[1:])
