#!/usr/bin/env bash
# Times reading a library image, looking each entry up, stowing one member more, and writing the image, on images of three shapes: few long
# records in 64 MiB, 20,000 members, and as many empty records as three bytes count. It runs a small program in a copy of four crates.
set -eu
top=$(cd "$(dirname "$0")/.." && pwd)
copy=$(mktemp -d)
trap 'rm -rf "$copy"' EXIT
mkdir -p "$copy/crates/library_bench/src"
cp -r "$top/crates/le_bytes" "$top/crates/pds_directory" "$top/crates/pds_lib" "$top/crates/pds_image" "$copy/crates/"
cat > "$copy/crates.txt" <<'TXT'
le_bytes: byteorder
pds_directory: le_bytes byteorder
pds_lib: pds_directory le_bytes
pds_image: pds_lib pds_directory le_bytes byteorder
library_bench: pds_image pds_lib pds_directory le_bytes
TXT
cat > "$copy/crates/library_bench/src/main.rt" <<'RT'
//! Times the calls of a library on the image whose path is the first argument.
#![tactic(auto)]

ghost use Rattle.std.specs.Prelude.{◌≡◌, ◌∷◌, [], IfOk};

use le_bytes::{Items, Name};
use pds_image::{image, image_length};
use pds_lib::{Library, LibKind, Member};
use std::alloc::Global;
use std::time::Instant;
use std::{env, fs, io};

fn tell(rt: &HostRuntime, what: &str, start: &Instant) -> io::Result<()> {
    let spent = start.elapsed(rt)?;
    println!(rt; "{what}: {} ms", spent.as_millis())
}

fn member(alloc: Global) -> Member
    ensures { result ≡ record { name = record { 0 = 65 ∷ 66 ∷ 67 ∷ 68 ∷ 69 ∷ 70 ∷ 71 ∷ 72 ∷ [] }; aliases = []; attr = 0; length = 0; entry = 0; entry_section = 0; records = [] } }
{
    Member {
        name: Name(*b"ABCDEFGH"),
        aliases: Items::new(alloc),
        attr: 0,
        length: 0,
        entry: 0,
        entry_section: 0,
        records: Items::new(alloc),
    }
}

fn find_all(library: &Library) -> usize {
    library.entries().iter().filter(|e| library.find(&e.name).is_some()).count()
}

fn write(rt: &HostRuntime, library: &Library) -> io::Result<()> {
    let start = Instant::now(rt)?;
    if image_length(library) > 67_108_864 {
        return println!(rt; "image: too long");
    }
    match image(library, rt.alloc()) {
        Ok(bytes) => {
            tell(rt, "image", &start)?;
            println!(rt; "{} bytes", bytes.len())
        }
        Err(_) => println!(rt; "image: no memory"),
    }
}

fn stow(rt: &HostRuntime, library: &mut Library) -> io::Result<()> {
    let start = Instant::now(rt)?;
    if library.kind() != LibKind::Modules {
        return Ok(());
    }
    match library.stow(rt.alloc(), member(rt.alloc()), true) {
        Ok(()) => tell(rt, "stow", &start),
        Err(_) => println!(rt; "stow: refused"),
    }
}

fn measure(rt: &HostRuntime, path: &str) -> io::Result<()> {
    let bytes = fs::read(rt, path)?;
    println!(rt; "{path}: {} bytes", bytes.len())?;
    let start = Instant::now(rt)?;
    match Library::read(rt.alloc(), bytes) {
        Ok(mut library) => {
            tell(rt, "read", &start)?;
            let start = Instant::now(rt)?;
            let found = find_all(&library);
            tell(rt, "find", &start)?;
            println!(rt; "{found} entries")?;
            stow(rt, &mut library)?;
            write(rt, &library)
        }
        Err(stop) => println!(rt; "read: {stop:?}"),
    }
}

fn main(rt: HostRuntime) -> io::Result<()> {
    for path in env::args(&rt)?.skip(1) {
        measure(&rt, path.as_str())?;
    }
    Ok(())
}
RT
python3 - "$copy" <<'PY'
import struct, sys
def entry(name, first):
    return name + first.to_bytes(3, "big") + bytes([6, 0, 0, 0, 0, 8, 0, 0, 0, 0, 0, 0, 1])
def image(entries, records, version=1):
    entries = entries + [b"\xff" * 8 + bytes(4)]
    blocks, now = [], b""
    for e in entries:
        if len(now) + len(e) > 254:
            blocks.append(now)
            now = b""
        now += e
    blocks.append(now)
    directory = b"".join((struct.pack(">H", 2 + len(b)) + b).ljust(256, b"\0") for b in blocks)
    head = bytes.fromhex("D7C4E2C9D4C1C7C5") + bytes([version, 0xE4, 0, 0])
    return head + struct.pack(">II", len(blocks), len(records)) + directory + b"".join(struct.pack(">H", len(r)) + r for r in records)
def name(k):
    return b"M%07d" % k
long_ = [bytes(32_765)] * 2_047 + [b""]
open(sys.argv[1] + "/long", "wb").write(image([entry(name(0), 1)], long_))
many = [bytes([2]) * 24, bytes([1]) * 20, bytes([3]) * 8, b""] * 20_000
open(sys.argv[1] + "/many", "wb").write(image([entry(name(k), 4 * k + 1) for k in range(20_000)], many))
open(sys.argv[1] + "/empty", "wb").write(image([entry(name(0), 1)], [b""] * 16_777_214 + [b""]))
PY
cd "$copy/crates/library_bench"
rt run -- "$copy/long" "$copy/many" "$copy/empty" 2>&1 | grep -E '( bytes| ms| entries|: .*(memory|long|refused|Bad.*))$'
