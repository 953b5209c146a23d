#!/usr/bin/env python3
"""Stops a disk at every call of every work on saved rows, and looks at what is found after each.

usage: stops.py

Needs `rt` on the path. The program stops/stops.rt.txt is put over modules of the crate `database_tests`. It is tried without a proof, which takes
some 20 minutes of one core. The interpreter, which `rt try` runs first, gives it up: what is printed is the native run's.

The works: the tables are made; two rows are saved; the rows go over to layout 2; a station of one is offered a tape; a run of `serve` is offered it; a life
of a row file begins, two rows are saved in it, and it ends. Of each, first the log and then the database's file fails at its first call, at its second, and so on, until a run comes to
its end. After each stop the disks lose what was not synced, are opened again, and the rows are taken up: they are not
there or empty, after a stop in `create`; all as they were, in the one layout or in the other, after one in an upgrade; else
those that were acknowledged, and at most the one that was asked for; and a new
station releases the tape that was released, or finds nothing and releases another. Printed is how many stops there were.
"""
import os
import shutil
import subprocess
import sys

HERE = os.path.dirname(os.path.abspath(__file__))
sys.path.insert(0, os.path.join(HERE, "..", "tools"))
sys.dont_write_bytecode = True
import test_crates

# Modules of the crate of tests by the folder that they stand in, at the top those of none.
MODULES = {
    "": ("examples",),
    "rows": ("identities", "samples"),
    "stops": ("disks", "runs", "saves", "stations", "works"),
}
# The libraries that they name.
NAMES = "ballots tape_frames rows_saved acceptor_store code_table widths line_check station wire command_ends driver serve_command rows_files rows_life sqlite sqlite_disk fixtures"
SECONDS = 7200


def main():
    if sys.argv[1:]:
        sys.exit(__doc__)
    with test_crates.laid_out() as crates:
        source = f"{crates}/stops/src"
        for folder, modules in MODULES.items():
            os.makedirs(f"{source}/{folder}", exist_ok=True)
            for module in modules:
                shutil.copy(f"{crates}/database_tests/src/{folder}/{module}.rt", f"{source}/{folder}/{module}.rt")
            if folder:
                with open(f"{source}/{folder}.rt", "w") as file:
                    file.writelines(f"pub mod {module};\n" for module in modules)
        shutil.copy(f"{HERE}/stops/stops.rt.txt", f"{source}/main.rt")
        with open(f"{crates}/../crates.txt", "a") as file:
            file.write(f"stops: anyhow {NAMES}\n")
        subprocess.run(["rt", "try", "--seconds", str(SECONDS)], cwd=f"{crates}/stops", check=True)


if __name__ == "__main__":
    main()
