#!/usr/bin/env bash
# The tests have the files and the tapes of the examples as constants, in the crate fixtures: this tells whether they are the same.
# Then, where the program is built, each example of the pages and of the program's own help is run, and has to print what stands there, byte for byte.
set -eu
cd "$(dirname "$0")"
python3 - <<'END'
import os
import re
import sys

# the constants of the tests by their source, and the files that they are copies of
COPIES = {
    ("fixtures/src/files", "CODES"): "codes.toml",
    ("fixtures/src/files", "WIDTHS"): "widths.toml",
    ("fixtures/src/tapes", "FLOOD"): "flood.tape",
    ("fixtures/src/tapes", "HARVEST"): "harvest.tape",
    ("fixtures/src/tapes", "OVERSET"): "overset.tape",
}

constants = {}
for source in sorted({source for source, _ in COPIES}):
    with open(f"../tests/crates/{source}.rt.txt", encoding="utf-8", newline="") as file:
        text = file.read()
    for name, raw in re.findall(r'pub const (\w+): &str =\s+r#"(.*?)"#;', text, re.DOTALL):
        constants[source, name] = raw.encode()
    for name, frames in re.findall(r"pub const (\w+): &\[u8\] = &\[([0-9, \n]*)\];", text):
        constants[source, name] = bytes(int(frame) for frame in frames.split(",") if frame.strip())

differing = []
for (source, name), path in COPIES.items():
    with open(path, "rb") as file:
        example = file.read()
    constant = constants.get((source, name), b"")
    if constant != example:
        shared = os.path.commonprefix([constant, example])
        line = shared.count(b"\n") + 1
        differing.append(f"{path} is not {name} of the tests: they differ in line {line}, from byte {len(shared) + 1} on.")
if differing:
    sys.exit("\n".join(differing))
print("The tests' files and tapes are those of the examples.")
END

# The lines that the pages link may lag behind the sources. That is told; no example is wrong for it.
../docs/pages.py --check || true

circuitd=$PWD/../crates/circuitd/out/circuitd
if [ ! -x "$circuitd" ]; then
    echo "The program is not built, so the pages' examples were not run: examples/first_circuit.sh builds it."
    exit 0
fi
../docs/examples.py "$circuitd"
./helps.py "$circuitd"
