"""Runs programs, and tells their times and their peak memory."""
import os
import re
import shutil
import subprocess
import sys
import time
from pathlib import Path

HERE = Path(__file__).resolve().parent
PROGRAM = HERE.parent / "crates/cla/out/cla"
ROUNDS = 5
GNU_TIME = shutil.which("time")


def run(words, room, variables=None):
    """Returns what a command printed, its seconds, and its peak memory in bytes as wait4 tells it."""
    environment = {**os.environ, **(variables or {})}
    start = time.perf_counter()
    started = subprocess.Popen(words, cwd=room, env=environment, stdin=subprocess.DEVNULL, stdout=subprocess.PIPE)
    printed = started.stdout.read()
    _, status, used = os.wait4(started.pid, 0)
    seconds = time.perf_counter() - start
    started.stdout.close()
    started.returncode = os.waitstatus_to_exitcode(status)
    if started.returncode:
        sys.exit(f"{sys.argv[0]}: {words[0]} ended with status {started.returncode}")
    return printed, seconds, used.ru_maxrss * 1024


def peak_of(words, room, variables=None):
    """Returns a command's peak memory in bytes, by GNU time where it is there: wait4 counts this process's own in."""
    note = Path(room) / "peak"
    if not GNU_TIME:
        return run(words, room, variables)[2]
    run([GNU_TIME, "-f", "%M", "-o", note, *words], room, variables)
    return int(note.read_text()) * 1024


def in_turn(commands, room):
    """Runs each command (its words and its variables) in each round. Returns the least seconds of each by its name, and
    what all of them printed."""
    best = dict.fromkeys(commands, float("inf"))
    texts = set()
    for _ in range(ROUNDS):
        for name, (words, variables) in commands.items():
            printed, seconds, _ = run(words, room, variables)
            best[name] = min(best[name], seconds)
            texts.add(printed)
    if len(texts) != 1:
        sys.exit(f"{sys.argv[0]}: the sums differ: {sorted(texts)}")
    return best, texts.pop().decode().strip()


def build_program():
    """Builds the program where it isn't there."""
    if not os.access(PROGRAM, os.X_OK):
        # (with no words it does nothing more than build)
        subprocess.run([HERE.parent / "cla"], check=False)
    if not os.access(PROGRAM, os.X_OK):
        sys.exit(f"{sys.argv[0]}: the program is not built")


def compile_cpp(name, room, flags):
    """Returns the program that a source of this folder makes."""
    program = Path(room) / name
    subprocess.run(["g++", "-std=c++17", *flags, "-Wall", "-o", program, HERE / f"{name}.cpp"], check=True)
    return program


def best_calls(programs, words, turns=ROUNDS):
    """Runs programs that measure calls in turn, each so often with these words. Returns for each program and call the nanoseconds
    of the best round. What they print, check sums, has to be the same."""
    best, texts = {}, set()
    for _ in range(turns):
        for name, program in programs.items():
            ended = subprocess.run([program, *map(str, words)], stdin=subprocess.DEVNULL, capture_output=True, text=True)
            if ended.returncode:
                sys.exit(f"{sys.argv[0]}: {program} ended with status {ended.returncode}\n{ended.stderr}")
            texts.add(ended.stdout)
            for call, nanoseconds, _ in re.findall(r"^(\w+) (\d+) ([\d.]+)$", ended.stderr, re.M):
                best[name, call] = min(best.get((name, call), float("inf")), int(nanoseconds))
    if len(texts) != 1:
        sys.exit(f"{sys.argv[0]}: the check sums of {words} differ:\n" + "\n".join(sorted(texts)))
    return best
