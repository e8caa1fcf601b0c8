#!/usr/bin/env python3
"""Compares the program `session` with the model beside it, on random files, valid and damaged.

usage: compare_sessions.py PROGRAM [HOW_MANY [SEED]]      PROGRAM is the built program, as crates/session/out/session
"""
import pathlib
import random
import subprocess
import sys

MODEL = pathlib.Path(__file__).with_name("session.py")


def valid(pick):
    amount, unit = pick.choice(["1", "10", "100"]), pick.choice(["s", "ms", "us", "ns", "ps", "fs"])
    seats, entries, depth = pick.randint(1, 4), pick.randint(1, 4), pick.randint(2, 5)
    lines = [f"timescale {amount} {unit}", f"pool {seats} {entries} {depth}"]
    for _ in range(pick.randint(0, 60)):
        name = pick.choice("begin read write prepare vote decide abort finish close read write finish vote".split())
        words = [name, str(pick.randint(0, seats - 1 if pick.random() < 0.95 else seats))]
        if name in ("read", "write", "vote", "finish"):
            words.append(str(pick.randint(0, entries - 1 if pick.random() < 0.95 else entries)))
        if name == "write":
            words.append(str(pick.randint(-1, 1) if pick.random() < 0.9 else pick.randint(-(10**18), 10**18)))
        lines.append(" ".join(words))
    return ("\n".join(lines) + "\n").encode()


def damaged(pick, data):
    data = bytearray(data)
    for _ in range(pick.randint(1, 3)):
        at = pick.randrange(len(data) + 1)
        what = pick.randrange(4)
        if what == 0 and at < len(data):
            data[at] = pick.choice(b" \n\r\t-0123456789abs\x00\xff")
        elif what == 1 and at < len(data):
            del data[at]
        elif what == 2:
            data[at:at] = bytes(pick.choice(b" \n-019x") for _ in range(pick.choice([1, 1, 2, 80])))
        else:
            del data[at:]
    return bytes(data)


def said(command, data):
    run = subprocess.run(command, input=data, capture_output=True)
    return run.stdout


def main():
    program, count = sys.argv[1], int(sys.argv[2]) if len(sys.argv) > 2 else 500
    seed = int(sys.argv[3]) if len(sys.argv) > 3 else 1
    pick = random.Random(seed)
    for i in range(count):
        data = valid(pick)
        if i % 2:
            data = damaged(pick, data)
        ours, model = said([program], data), said([sys.executable, str(MODEL)], data)
        if ours != model:
            pathlib.Path("differs.session").write_bytes(data)
            print(f"file {i} of seed {seed} differs, and stands in differs.session:\nprogram {ours!r}\nmodel   {model!r}")
            return 1
    print(f"{count} files, seed {seed}: the program and the model say the same")
    return 0


if __name__ == "__main__":
    sys.exit(main())
