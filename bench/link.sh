#!/usr/bin/env bash
# Times `link` beside the host's linkers. Decks: 20,000 and 1,000 of one section of 16 bytes with three constants each (a number's place for
# its own address, the next section's, and a call of that), one section with 20,000 constants, and one section with 32,000 labels. Beside the first,
# where they are installed, `ld`, `lld` and `mold` link one archive of 20,000 ELF objects with the same section and three relocations each.
# Each command runs fifteen times in turn with the others, since a machine is seldom quiet; the least wall time counts, and the most memory.
set -eu
cd "$(dirname "$0")/.."
program=$(find crates/linkedit/out -maxdepth 1 -type f -name linkedit | head -n 1)
[ -n "$program" ] || { echo "first: (cd crates/linkedit && rt run)"; exit 1; }
work=$(mktemp -d)
trap 'rm -rf "$work"' EXIT
python3 - "$PWD/$program" "$work" <<'PY'
import os, shutil, struct, subprocess, sys, time

program, work = sys.argv[1:]

# ---- object decks

def card(*parts):
    text = b"".join(parts)
    return text + b"\x40" * (80 - len(text))

def name(letter, i):
    return bytes([letter] + [0xF0 + int(c) for c in "%05d" % i]) + b"\x40\x40"

def item(kind, address, last):
    return bytes([kind]) + address.to_bytes(3, "big") + b"\x40" + last.to_bytes(3, "big")

def esd(first, items):
    number = b"@@" if first is None else first.to_bytes(2, "big")
    return card(b"\x02\xc5\xe2\xc4@@@@@@", (16 * len(items)).to_bytes(2, "big"), b"@@", number, *items)

def txt(address, text):
    return card(b"\x02\xe3\xe7\xe3@", address.to_bytes(3, "big"), b"@@", len(text).to_bytes(2, "big"), b"@@\x00\x01", text)

def rld(data):
    return card(b"\x02\xd9\xd3\xc4@@@@@@", len(data).to_bytes(2, "big"), b"@@@@", data)

END = card(b"\x02\xc5\xd5\xc4")

def decks(count):
    out = []
    for i in range(1, count + 1):
        after = i % count + 1
        out += [esd(1, [name(0xE2, i) + item(0, 0, 16), name(0xE2, after) + item(2, 0, 0x404040)]),
                txt(0, i.to_bytes(4, "big") + bytes(12)),
                rld(b"\x00\x01\x00\x01\x0c\x00\x00\x04" b"\x00\x02\x00\x01\x0c\x00\x00\x08" b"\x00\x02\x00\x01\x1c\x00\x00\x0c"),
                END]
    return b"".join(out)

def constants(count):
    out = [esd(1, [name(0xE2, 1) + item(0, 0, 4 * count)])]
    for at in range(0, 4 * count, 56):
        out.append(txt(at, bytes(min(56, 4 * count - at))))
    for first in range(0, count, 7):
        data = b"".join(b"\x00\x01\x00\x01\x0c" + (4 * i).to_bytes(3, "big") for i in range(first, min(first + 7, count)))
        out.append(rld(data))
    return b"".join(out) + END

def labels(count):
    out = [esd(1, [name(0xE2, 1) + item(0, 0, count)])]
    for first in range(0, count, 3):
        out.append(esd(None, [name(0xD3, i) + item(1, i, 1) for i in range(first, min(first + 3, count))]))
    return b"".join(out) + END

# ---- as many ELF sections in one archive

def archive(count, path):
    with open(work + "/one.s", "w") as out:
        out.write(".data\n.globl SAAAAA\nSAAAAA: .long 0x12345678, SAAAAA, SBBBBB, SBBBBB\n")
    subprocess.check_call(["as", "-o", work + "/one.o", work + "/one.s"])
    with open(work + "/one.o", "rb") as it:
        model = it.read()
    objects = [model.replace(b"AAAAA", b"%05d" % i).replace(b"BBBBB", b"%05d" % (i % count + 1)).replace(b"\x78\x56\x34\x12", struct.pack("<I", i))
               for i in range(1, count + 1)]
    names = b"".join(b"S%05d\0" % i for i in range(1, count + 1))
    names += b"\n" * (len(names) % 2)
    head = lambda name, size: b"%-16s%-12s%-6s%-6s%-8s%-10d`\n" % (name, b"0", b"0", b"0", b"644", size)
    index = 4 + 4 * count + len(names)
    at, places = 8 + 60 + index, []
    for one in objects:
        places.append(at)
        at += 60 + len(one) + len(one) % 2
    with open(path, "wb") as out:
        out.write(b"!<arch>\n" + head(b"/", index) + struct.pack(">I", count) + b"".join(struct.pack(">I", it) for it in places) + names)
        for i, one in enumerate(objects):
            out.write(head(b"o%d.o/" % i, len(one)) + one + b"\n" * (len(one) % 2))

# ---- runs

def run(words):
    before = time.perf_counter()
    child = subprocess.Popen(words, stdout=subprocess.DEVNULL, stderr=subprocess.DEVNULL)
    _, status, used = os.wait4(child.pid, 0)
    child.returncode = status
    if status:
        sys.exit("%s: status %d" % (" ".join(words), status))
    return time.perf_counter() - before, used.ru_utime + used.ru_stime, used.ru_maxrss / 1024

def put(path, data):
    with open(work + path, "wb") as out:
        out.write(data)

put("/d20000", decks(20000)); put("/d1000", decks(1000)); put("/constants", constants(20000)); put("/labels", labels(32000))
link = lambda what: [program, "link", "SYSLIN=%s/%s" % (work, what), "SYSLMOD=%s/library" % work]
runs = {
    "linkedit, 20,000 decks": link("d20000"),
    "linkedit, 1,000 decks": link("d1000"),
    "linkedit, 20,000 constants": link("constants"),
    "linkedit, 32,000 labels": link("labels"),
}
if shutil.which("as"):
    archive(20000, work + "/objects.a")
    for tool in ("ld", "ld.lld", "mold"):
        if shutil.which(tool):
            runs["%s, 20,000 objects" % tool] = [tool, "-e", "S00001", "-o", work + "/linked", "--whole-archive", work + "/objects.a"]
found = {what: [] for what in runs}
for _ in range(15):
    for what, words in runs.items():
        if os.path.exists(work + "/library"):
            os.remove(work + "/library")
        found[what].append(run(words))
print("| Run | Wall, ms | Processor, ms | Memory, MB |\n|---|---|---|---|")
least = {}
for what, all_of in found.items():
    least[what] = min(it[0] for it in all_of)
    print("| %s | %.0f | %.0f | %.0f |" % (what, 1000 * least[what], 1000 * min(it[1] for it in all_of), max(it[2] for it in all_of)))
print("\n20,000 decks take %.1f times as long as 1,000" % (least["linkedit, 20,000 decks"] / least["linkedit, 1,000 decks"]))
if "ld.lld, 20,000 objects" in least:
    print("and %.2f of lld's time" % (least["linkedit, 20,000 decks"] / least["ld.lld, 20,000 objects"]))
PY
