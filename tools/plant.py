#!/usr/bin/env python3
"""Plants the bugs of a list one at a time in a copy of the repository, and says what becomes of each.

    tools/plant.py LIST                                                 only tells which bugs no longer fit the code (.ci/run asks this)
    tools/plant.py LIST COPY OUTCOMES [CRATE..]
    tools/plant.py tools/planted.txt /tmp/copy /tmp/outcomes            all bugs of the list
    tools/plant.py tools/planted_edits.txt /tmp/copy /tmp/edits pool    must-fail edits that the gate tries no more, those of pool

A bug is a block of lines: name, crate, what (the bug in words), file (in the crate), and one or more pairs of old and new. A text is one line,
in which \\n stands for the end of a line, and \\\\n for those two signs; each old text stands in its file exactly once.

The bug's crate is checked first, and where it proves, the crates above it; where those prove too, their programs and tests are run. COPY is made
from the folder above this one, and kept between runs: remove it once that folder has changed. OUTCOMES gets a line for each bug, and a
second run goes on behind the last: name, crate, outcome, the crate in which it was noticed, the line of the log that tells, seconds. An outcome is

    refused by the proof     a check failed; read OUTCOMES.log, since a goal that is only named otherwise tells nothing
    caught only by a test    all proves, and a test or a program's wanted output fails
    caught by nothing        all proves and passes: a contract to strengthen, or a bug that means the same
    does not fit             an old text does not stand in its file exactly once: bring the list up to the code
    does not compile         the new text is no program
    no verdict               the check itself gave up

With PLANT_LOCK=FILE each check waits for that lock. An edit is taken back into the gate by moving its block into a file of its crate's must-fail/.
"""
import os
import re
import subprocess
import sys
import time

TOP = os.path.dirname(os.path.dirname(os.path.abspath(__file__)))


def unfolded(text):
    return re.sub(r"\\\\n|\\n", lambda found: "\n" if found.group() == "\\n" else "\\n", text)


def blocks(path):
    bug = None
    for line in open(path, encoding="utf-8"):
        line = line.rstrip("\n")
        if not line.strip() or line.startswith("#"):
            continue
        key, text = line.split(": ", 1) if ": " in line else (line.rstrip(":"), "")
        if key == "name":
            if bug:
                yield bug
            bug = {"name": text, "pairs": []}
        elif key == "old":
            bug["pairs"].append([unfolded(text), None])
        elif key == "new":
            bug["pairs"][-1][1] = unfolded(text)
        else:
            bug[key] = text
    if bug:
        yield bug


def crates(top):
    deps = {}
    for line in open(os.path.join(top, "crates.txt"), encoding="utf-8"):
        line = line.split("#")[0].strip()
        if line:
            name, rest = line.split(":")
            deps[name.split()[0]] = rest.split()
    return deps


def above(deps, crate):
    found, order = {crate}, []
    for name in deps:
        if name not in found and found & set(deps[name]):
            found.add(name)
            order.append(name)
    return order


def rt(copy, crate, command):
    lock = os.environ.get("PLANT_LOCK")
    call = ["flock", lock] if lock else []
    folder = os.path.join(copy, "crates", crate)
    fed = os.path.join(folder, "stdin")
    if command == "run":
        given = open(fed if os.path.exists(fed) else os.devnull, encoding="utf-8")
        run = subprocess.run(call + ["rt", "run"], cwd=folder, stdin=given, stdout=subprocess.PIPE, stderr=subprocess.PIPE, text=True)
        wanted = open(os.path.join(folder, "stdout"), encoding="utf-8").read().splitlines()
        printed = run.stdout.splitlines()
        for want, line in zip(wanted + [""] * len(printed), printed + [""] * len(wanted)):
            if want != line:
                return 1, "fails: %r printed where %r is wanted" % (line, want)
        return run.returncode, run.stderr
    run = subprocess.run(call + ["rt", command], cwd=folder, stdout=subprocess.PIPE, stderr=subprocess.STDOUT, text=True)
    return run.returncode, run.stdout


TELLS = re.compile(r"error|it is not proved|no proof|not proved|does not|FAIL|fail|panick|assert")


def first_line(log):
    for line in log.splitlines():
        if re.match(r"(fn|impl|enum|checked|rt:|library|statements|crate|logic|help:|    )", line) and "error" not in line:
            continue
        if TELLS.search(line):
            return line.strip()
    for line in log.splitlines():
        if "not proved" in line or "no proof" in line:
            return line.strip()
    return (log.strip().splitlines() or ["no output"])[-1]


def has_tests(copy, crate):
    for folder, _, files in os.walk(os.path.join(copy, "crates", crate, "src")):
        for name in files:
            if name.endswith(".rt") and "#[test]" in open(os.path.join(folder, name), encoding="utf-8").read():
                return True
    return False


def planted(path, bug):
    """The file as it stands, the file with the bug in it, and why it does not fit, if it does not."""
    if not os.path.exists(path):
        return "", "", "no such file: %s" % bug["file"]
    before = open(path, encoding="utf-8").read()
    text = before
    for old, new in bug["pairs"]:
        if text.count(old) != 1:
            return before, text, "stands %d times: %s" % (text.count(old), old)
        text = text.replace(old, new)
    return before, text, None


def outcome(copy, deps, bug, logs):
    path = os.path.join(copy, "crates", bug["crate"], bug["file"])
    before, text, misfit = planted(path, bug)
    if misfit:
        return "does not fit", bug["crate"], misfit
    try:
        open(path, "w", encoding="utf-8").write(text)
        subprocess.run(["rt", "fmt"], cwd=os.path.join(copy, "crates", bug["crate"]), stdout=subprocess.DEVNULL, stderr=subprocess.DEVNULL)
        for crate in [bug["crate"]] + above(deps, bug["crate"]):
            status, log = rt(copy, crate, "check")
            logs.write("==== %s: check %s\n%s\n" % (bug["name"], crate, log))
            if status == 1:
                line = first_line(log)
                is_code = re.search(r"error\[|error: expected", line)
                return ("does not compile" if is_code else "refused by the proof"), crate, line
            if status != 0:
                return "no verdict", crate, first_line(log)
        for crate in [bug["crate"]] + above(deps, bug["crate"]):
            if os.path.exists(os.path.join(copy, "crates", crate, "src", "main.rt")):
                status, log = rt(copy, crate, "run")
                logs.write("==== %s: run %s\n%s\n" % (bug["name"], crate, log))
                if status != 0:
                    return "caught only by a test", crate, first_line(log)
            if has_tests(copy, crate):
                status, log = rt(copy, crate, "test")
                logs.write("==== %s: test %s\n%s\n" % (bug["name"], crate, log))
                if status != 0:
                    return "caught only by a test", crate, first_line(log)
        return "caught by nothing", "-", "-"
    finally:
        open(path, "w", encoding="utf-8").write(before)


NAME = re.compile(r"\b[A-Z]\w*")
PAIR = re.compile(r"\b([A-Z]\w*)::(\w+)")
DECLARED = re.compile(r"^(?:pub(?:\([^)]*\))? )?(?:enum|struct|trait) (\w+)", re.M)


def sources():
    texts = []
    for folder, _, files in os.walk(os.path.join(TOP, "crates")):
        if "src" in folder.split(os.sep):
            for name in files:
                if name.endswith(".rt"):
                    texts.append(open(os.path.join(folder, name), encoding="utf-8").read())
    return texts


def members(texts):
    """For each type of the code, all that stands in files which declare it or have an impl of it."""
    found = {name: "" for text in texts for name in DECLARED.findall(text)}
    for name in found:
        here = re.compile(r"(?:enum|struct|trait|impl\b[^{\n]*) %s\b" % name)
        found[name] = "".join(text for text in texts if here.search(text))
    return found


def gone(new, names, types):
    """What the new text names and the code does not have: a type, a case, a constant, or a function behind a type's name."""
    new = re.sub(r'"[^"]*"', "", new)
    missing = set(NAME.findall(new)) - names
    for kind, name in PAIR.findall(new):
        if kind in types and not re.search(r"\b(?:fn|const) %s\b|^    %s\b|\b%s::%s\b" % (name, name, kind, name), types[kind], re.M):
            missing.add(kind + "::" + name)
    return sorted(missing)


def fits(listed):
    misfits = 0
    texts = sources()
    names = {name for text in texts for name in NAME.findall(text)}
    types = members(texts)
    for bug in blocks(listed):
        misfit = planted(os.path.join(TOP, "crates", bug["crate"], bug["file"]), bug)[2]
        missing = [name for _, new in bug["pairs"] for name in gone(new, names, types)]
        if not misfit and missing:
            misfit = "names what is nowhere in the code: %s" % ", ".join(missing)
        if misfit:
            misfits += 1
            print("%s: %s: %s" % (bug["crate"], bug["name"], misfit))
    print("%d do not fit" % misfits)
    return 1 if misfits else 0


def main():
    if len(sys.argv) == 2:
        sys.exit(fits(sys.argv[1]))
    listed, copy, outcomes, only = sys.argv[1], os.path.abspath(sys.argv[2]), sys.argv[3], sys.argv[4:]
    if not os.path.isdir(copy):
        subprocess.run(["cp", "-r", TOP, copy], check=True)
    deps = crates(copy)
    done = set()
    if os.path.exists(outcomes):
        done = {line.split("\t")[0] for line in open(outcomes, encoding="utf-8")}
    for bug in blocks(listed):
        if bug["name"] in done or (only and bug["crate"] not in only):
            continue
        start = time.time()
        with open(outcomes + ".log", "a", encoding="utf-8") as logs:
            what, where, line = outcome(copy, deps, bug, logs)
        with open(outcomes, "a", encoding="utf-8") as out:
            out.write("\t".join([bug["name"], bug["crate"], what, where, line, "%d s" % (time.time() - start)]) + "\n")


main()
