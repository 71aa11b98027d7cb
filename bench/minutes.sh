#!/usr/bin/env bash
# Sums the processor time of a run by crate and by kind: the crate's own proof; the proof and building of its tests; its wrong bodies, with
# the proof that they begin with; and the rest, which is `rt` itself and the tests and programs that run.
# `bench/minutes.sh [WORD..]` runs `rt ci WORD..`, and `bench/minutes.sh -- COMMAND [WORD..]` another command. What the command prints comes
# first, then a table in seconds of processor time; the status is the command's. Each process is looked at five times a second, so what it
# takes after the last look is in the last line alone. Where earlier runs were kept, only what is done anew is counted.
set -eu
[ "${1:-}" = "--" ] && shift || set -- rt ci "$@"
exec python3 - "$@" <<'PY'
import os, re, subprocess, sys, time

TICK = os.sysconf("SC_CLK_TCK")
KINDS = ["proof", "test", "edit", "rest"]
# The crate, the kind and the seconds of each process, by its number and start.
seen = {}

def read(path):
    with open(path, "rb") as it:
        return it.read().decode(errors="replace")

def processes():
    """Each process: its number, its parent's, and the fields after its name."""
    for pid in filter(str.isdigit, os.listdir("/proc")):
        try:
            fields = read(f"/proc/{pid}/stat").rpartition(")")[2].split()
        except OSError:
            continue
        yield int(pid), int(fields[1]), fields

def checked_by(pid):
    """The crate and the kind of check of a process that checks or builds one, by its words and its folder."""
    words = read(f"/proc/{pid}/cmdline").split("\0")
    if "--crate-name" not in words or os.path.basename(words[0]) != "rattle":
        return None
    name = words[words.index("--crate-name") + 1]
    is_edit = re.search(r"/rt-edit-[^/]*$", os.readlink(f"/proc/{pid}/cwd"))
    return name, "edit" if is_edit else "test" if "--test" in words else "proof"

def place_of(pid, table):
    """The crate and the kind of a process: of itself, or of the nearest check that started it."""
    while pid in table:
        place = checked_by(pid)
        if place:
            return place
        pid = table[pid][0]
    return "-", "rest"

def look(root):
    """Notes the time of all that the command started and that still runs."""
    table = {pid: (parent, fields) for pid, parent, fields in processes()}
    below = {root}
    grew = True
    while grew:
        more = {pid for pid, (parent, _) in table.items() if parent in below} - below
        below |= more
        grew = bool(more)
    for pid in below & table.keys():
        fields = table[pid][1]
        try:
            place = place_of(pid, table)
        except OSError:
            place = seen.get((pid, fields[19]), (("-", "rest"), 0))[0]
        seen[pid, fields[19]] = place, (int(fields[11]) + int(fields[12])) / TICK

def row(name, seconds):
    print(f"{name:18}" + "".join(f"{it:9.1f}" for it in [*seconds, sum(seconds)]))

command = subprocess.Popen(sys.argv[1:])
while command.poll() is None:
    look(command.pid)
    time.sleep(0.2)
print()
print(f"{'crate':18}" + "".join(f"{it:>9}" for it in [*KINDS, "all"]))
sums = {}
for (name, kind), seconds in seen.values():
    sums.setdefault(name, dict.fromkeys(KINDS, 0))[kind] += seconds
for name in sorted(sums):
    row(name, sums[name].values())
row("all", [sum(it[kind] for it in sums.values()) for kind in KINDS])
spent = os.times()
print(f"all that the command and its processes took: {spent.children_user + spent.children_system:.1f}")
sys.exit(command.returncode)
PY
