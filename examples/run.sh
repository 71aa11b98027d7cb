#!/usr/bin/env bash
# Runs every command that README.md, docs/USING.md, docs/REFUSALS.md and the examples of man/linkedit.1 show, in a new
# folder, and compares what each prints, on standard output and standard error, and its exit status with what stands there. `linkedit` has to be on the path, or built in crates/linkedit/out.
set -eu
cd "$(dirname "$0")/.."
exec python3 - <<'PY'
import os, re, shutil, subprocess, sys, tempfile

top = os.getcwd()
built = os.path.join(top, "crates/linkedit/out")
environment = dict(os.environ, PATH=built + os.pathsep + os.environ["PATH"])
bad = done = 0


def blocks(path):
    """The commands of a document with the lines and the exit status that stand with each."""
    command = None
    for line in open(path, encoding="utf-8"):
        line = line.rstrip("\n")
        if line.startswith("    $ "):
            if command:
                yield command
            text, _, status = line[6:].partition("  # ")
            command = [text.strip(), [], int(status) if status.strip() else 0]
        elif command and line.startswith("    "):
            command[1].append(line[4:])
        elif command:
            yield command
            command = None
    if command:
        yield command


def run(name, commands):
    global bad, done
    with tempfile.TemporaryDirectory() as folder:
        shutil.copytree("examples", os.path.join(folder, "examples"))
        for text, lines, status in commands:
            ran = subprocess.run(["bash", "-c", text], cwd=folder, env=environment, stdout=subprocess.PIPE, stderr=subprocess.STDOUT, text=True)
            done += 1
            if lines is not None and ran.stdout.splitlines() != lines or ran.returncode != status:
                bad += 1
                print(f"{name}: {text}\n  exit {ran.returncode}, {status} is said\n  " + "\n  ".join(ran.stdout.splitlines()))


for document in ["README.md", "docs/USING.md", "docs/REFUSALS.md"]:
    run(document, list(blocks(document)))
page = open("man/linkedit.1").read()
shown = re.search(r"\.SH EXAMPLES\n\.nf\n(.*?)\.fi", page, re.S).group(1).splitlines()
run("man/linkedit.1", [[line, None, 4 if "LET" in line else 0] for line in shown])
print(f"{done - bad} passed, {bad} failed")
sys.exit(bad > 0)
PY
