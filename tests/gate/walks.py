"""No crate grows back: each must-fail edit checks its crate, so that the size of a crate is what an edit costs.

What takes the time of a check is the walk that the prover makes of each function's code, and the size of the modules that it keeps of these walks stands for it.
A library of the repository has them in its rlib, which `make archive program` leaves for each crate that the archive or the program uses; a static library has none, and its own
modules stand where its check keeps its work.
"""

import glob
import os
import re

from checking import Failed, expect
from files import ROOT, contents, crate_lines, crates_below

LIMIT = 5_000_000  # bytes of walks, which stand for a check of 10 s or somewhat more
WALK = ".Lts.oantt"
BUILT = ("nezgrak", "nezgrak_job")  # the archive and the program
CODE = re.compile(r"^ *(?:pub )?(?:extern \"C\" )?fn ", re.M)


def members(path):
    """The names and sizes of what an archive holds."""
    with open(path, "rb") as file:
        expect(file.read(8) == b"!<arch>\n", path, "is not an archive")
        names = b""
        while head := file.read(60):
            name, size = head[:16].decode().strip(), int(head[48:58])
            if name == "//":
                names = file.read(size)
            else:
                if re.fullmatch(r"/\d+", name):
                    name = names[int(name[1:]) :].partition(b"\n")[0].decode()
                yield name.rstrip("/"), size
                file.seek(size, os.SEEK_CUR)
            file.seek(size % 2, os.SEEK_CUR)


def walks_of(crate, is_static):
    """How many bytes the walks of a library's functions have."""
    out = os.path.join(ROOT, "crates", crate, "out")
    if is_static:
        kept = glob.glob(f"{out}/incremental/*/Rattle-{crate}-proofs.*{WALK}")
        return sum(os.path.getsize(path) for path in kept)
    try:
        return sum(size for name, size in members(f"{out}/rlib/{crate}.rlib/toolchain/checked.a") if name.endswith(WALK))
    except (OSError, ValueError) as error:
        raise Failed(f"the walks of {crate} are not where they were: {error}") from None


def is_program(crate):
    return os.path.exists(os.path.join(ROOT, "crates", crate, "src", "main.rt"))


def has_code(crate):
    return any(CODE.search(contents(path)) for path in glob.glob(f"crates/{crate}/src/**/*.rt", root_dir=ROOT, recursive=True))


def check_walks():
    lines, built = crate_lines(), set().union(*map(crates_below, BUILT))
    with_code = [crate for crate in lines if not is_program(crate) and has_code(crate)]
    apart = [crate for crate in with_code if crate not in built]
    expect(not apart, "neither the archive nor the program uses", ", ".join(apart), "so that nothing says how large it is")
    sizes = {crate: walks_of(crate, "staticlib" in lines[crate].partition(":")[0].split()) for crate in with_code}
    lost = [crate for crate, size in sizes.items() if not size]
    expect(not lost, "no walks are kept of", ", ".join(lost), "they are not where they were")
    large = [f"{crate} ({size / 1e6:.1f} MB)" for crate, size in sizes.items() if size > LIMIT]
    expect(not large, f"over {LIMIT / 1e6:.0f} MB of generated proofs, so that each of its edits costs more than that is worth; split:", ", ".join(large))
    yield f"the walks of {len(sizes)} crates have at most {max(sizes.values()) / 1e6:.1f} MB each"
