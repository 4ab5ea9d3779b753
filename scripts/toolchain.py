"""The folder of the toolchain, and the module of its `rt` that knows what a crate is compiled from."""
import functools
import importlib
import pathlib
import shutil
import sys


@functools.cache
def toolchain():
    """The toolchain's folder, two above the file that `rt` is, and its module `rtlib`. Ends with status 1 where there is no `rt`."""
    rt = shutil.which("rt")
    if not rt:
        sys.exit("rt is not on the path: the toolchain is not there")
    kit = pathlib.Path(rt).resolve().parent.parent
    sys.dont_write_bytecode = True
    sys.path.insert(0, f"{kit}/bin")
    return kit, importlib.import_module("rtlib")
