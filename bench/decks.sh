#!/usr/bin/env bash
# Times `go` on 20,000 decks, each of one section of 16 bytes with three constants: its own address, the next section's, and a
# call of that. Beside it, where there are `as` and `ld`, the host's linker on as many sections with as many relocations.
set -eu
cd "$(dirname "$0")/../crates/linkedit"
work=$(mktemp -d)
trap 'rm -rf "$work"' EXIT
python3 - "$work" <<'PY'
import sys
count, work = 20000, sys.argv[1]
def card(*parts):
    text = b"".join(parts)
    return text + b"\x40" * (80 - len(text))
def name(i):
    return bytes([0xe2] + [0xf0 + int(c) for c in "%05d" % i]) + b"\x40\x40"
def item(kind, length):
    return bytes([kind]) + b"\x00\x00\x00\x40" + length.to_bytes(3, "big")
def deck(i):
    after = i % count + 1
    return (card(b"\x02\xc5\xe2\xc4@@@@@@\x00\x20@@\x00\x01", name(i), item(0, 16), name(after), item(2, 0))
            + card(b"\x02\xe3\xe7\xe3@\x00\x00\x00@@\x00\x10@@\x00\x01", i.to_bytes(4, "big"), bytes(12))
            + card(b"\x02\xd9\xd3\xc4@@@@@@\x00\x18@@@@", b"\x00\x01\x00\x01\x0c\x00\x00\x04",
                   b"\x00\x02\x00\x01\x0c\x00\x00\x08", b"\x00\x02\x00\x01\x1c\x00\x00\x0c")
            + card(b"\x02\xc5\xd5\xc4"))
with open(work + "/decks", "wb") as out:
    for i in range(1, count + 1):
        out.write(deck(i))
with open(work + "/sections.s", "w") as out:
    for i in range(1, count + 1):
        after = i % count + 1
        out.write('.section .s%05d,"aw"\n.globl S%05d\nS%05d: .long %d, S%05d, S%05d, S%05d\n' % (i, i, i, i, i, after, after))
PY
program=$(find out -maxdepth 1 -type f -name 'linkedit' | head -n 1)
[ -n "$program" ] || { echo "first: (cd crates/linkedit && rt run)"; exit 1; }
echo "linkedit go, 20,000 decks, linked and printed:"
time "$program" go "SYSLIN=$work/decks" > "$work/printed"
tail -n 1 "$work/printed"
if command -v as > /dev/null && command -v ld > /dev/null; then
    as -o "$work/sections.o" "$work/sections.s"
    echo "ld, 20,000 sections, linked into a file:"
    time ld -e S00001 -o "$work/linked" "$work/sections.o"
else
    echo "as and ld are not here: nothing to stand beside it"
fi
