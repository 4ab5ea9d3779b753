"""What passed before, by the content of what it read.

A pass is an empty file in ~/.cache/otbench/tests (or below XDG_CACHE_HOME), outside of any checkout, so that clones of this machine share
it. A failure is never kept, and ends what was kept of the same content. What was not used for two months goes.
"""
import contextlib
import hashlib
import os
import pathlib
import time

FOLDER = pathlib.Path(os.environ.get("XDG_CACHE_HOME") or pathlib.Path.home() / ".cache") / "otbench" / "tests"
SECONDS_KEPT = 60 * 24 * 3600


def key(room, command, folders):
    """A checksum of all that a run reads: the command, the toolchain's identity, the scripts that make both, and the sources of these crates of the copy, the tests among them."""
    found = hashlib.sha256(repr([word.replace(room, "") for word in command]).encode())
    own = [pathlib.Path(command[0]).parent.parent / "KIT-ID", *sorted(pathlib.Path(__file__).parent.glob("*.py"))]
    read = [file for folder in folders for file in sorted(pathlib.Path(folder, "src").rglob("*")) if file.is_file()]
    for name, file in [*((it.name, it) for it in own), *((str(it).replace(room, ""), it) for it in read)]:
        found.update(repr((name, file.read_bytes())).encode())
    return found.hexdigest()


def has_passed(key):
    """Whether a run of this key passed before."""
    with contextlib.suppress(OSError):
        os.utime(FOLDER / key)
        return True
    return False


def note(key, passed):
    """Keeps a pass, or ends it. Where nothing can be kept, the next run runs the tests again."""
    with contextlib.suppress(OSError):
        FOLDER.mkdir(parents=True, exist_ok=True)
        if passed:
            (FOLDER / key).touch()
        else:
            (FOLDER / key).unlink(missing_ok=True)
        for it in FOLDER.iterdir():
            if time.time() - it.stat().st_mtime > SECONDS_KEPT:
                it.unlink(missing_ok=True)
