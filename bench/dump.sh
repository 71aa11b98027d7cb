#!/usr/bin/env bash
# Times `go` on one section of 4,194,304 bytes with one text card: nearly all of it is the dump of 262,144 lines.
set -eu
cd "$(dirname "$0")/../crates/linkedit"
deck=$(mktemp)
python3 - "$deck" <<'PY'
import sys
def card(*parts):
    bytes_ = bytearray([0x40] * 80)
    for at, part in parts:
        bytes_[at:at + len(part)] = part
    return bytes(bytes_)
esd = card((0, b"\x02\xc5\xe2\xc4"), (10, b"\x00\x10"), (14, b"\x00\x01"), (16, b"\xc1\x40\x40\x40\x40\x40\x40\x40\x00\x00\x00\x00\x40\x40\x00\x00"))
txt = card((0, b"\x02\xe3\xe7\xe3"), (5, b"\x00\x00\x00"), (10, b"\x00\x04"), (14, b"\x00\x01"), (16, b"\x01\x02\x03\x04"))
end = card((0, b"\x02\xc5\xd5\xc4"))
open(sys.argv[1], "wb").write(esd + txt + end)
PY
program=$(find out -maxdepth 1 -type f -name 'linkedit' | head -n 1)
[ -n "$program" ] || { echo "first: (cd crates/linkedit && rt run)"; exit 1; }
time "$program" go "SYSLIN=$deck" > /dev/null
rm -f "$deck"
