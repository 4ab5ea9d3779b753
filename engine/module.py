"""The LLVM module that rattle hands its compiler for the proved program.

`rattle build` proves the program over what the checks of this tree kept, and only then writes the module and calls clang. It is given the kit's
toolchain but for clang: the one here keeps the module, and answers with an empty object.
"""
import pathlib
import subprocess
import sys

# rattle starts its compiler with no environment, in a folder of its own.
CLANG = """#!/bin/sh
/bin/cp module.bc '{module}' || exit
while [ "$1" != -o ]; do shift; done
echo | '{clang}' --target=x86_64-unknown-linux-gnu --no-default-config -fintegrated-cc1 -x c -c -o "$2" -
"""


class NotBuilt(Exception):
    """Why there is no module."""


def kit():
    """The folder of the toolchain behind `rt`."""
    try:
        said = subprocess.run(["rt", "doc"], capture_output=True, text=True, check=True).stdout
    except (OSError, subprocess.CalledProcessError) as why:
        raise NotBuilt(f"no rt on the path, which proves and compiles the program: {why}") from why
    return pathlib.Path(said.strip()).parent


def keeping(to, kit_folder, module):
    """A toolchain in a new folder: the kit's but for clang, which keeps the module."""
    (to / "bin").mkdir(parents=True)
    toolchain = kit_folder / "toolchain"
    for it in [*toolchain.glob("*"), *toolchain.glob("bin/*")]:
        if it.name not in ("bin", "clang"):
            (to / it.relative_to(toolchain)).symlink_to(it)
    clang = to / "bin/clang"
    clang.write_text(CLANG.format(module=module, clang=toolchain / "bin/clang"))
    clang.chmod(0o755)
    return to


def keep_module(top, kit_folder, room, to):
    """Writes the proved program's module to `to`. Raises NotBuilt where the crates below it are not proved yet, or it is not proved."""
    sys.dont_write_bytecode = True
    sys.path.insert(0, str(kit_folder / "bin"))
    import rtlib

    folder = str(top / "crates/otbench")
    crate = rtlib.Crate(folder, str(top), {})
    crate.out = sys.stderr
    held = rtlib.lock([*crate.below(), crate])
    unproved = [it.name for it in crate.below() if not it.is_built()]
    if unproved:
        raise NotBuilt(f"{len(unproved)} crates are not proved as they stand, the first is {unproved[0]}: `rt all check` at the top proves them")
    toolchain = keeping(room / "toolchain", kit_folder, to)
    words = [*crate.words([]), "--toolchain", str(toolchain), "--backend", "llvm", "--cpu=x86-64", *rtlib.KEPT, "-o", str(room / "program.o")]
    status = crate.call(rtlib.RATTLE, "build", *words)
    del held
    if status or not crate.is_proved or not to.is_file():
        raise NotBuilt(f"rattle build ended with status {status}")
