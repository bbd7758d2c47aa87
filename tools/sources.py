"""Which sources have changed since something was built."""
import glob
import os
from typing import Iterator

# The folders of a crate that have no sources.
NO_SOURCES = {"out", "must-fail", "plants"}


def sources(top: str) -> Iterator[str]:
    """The sources of the tree at `top`: the list of crates, the crates' modules and definitions, and the folders in which these stand."""
    yield os.path.join(top, "crates.txt")
    yield os.path.join(top, "HANDLES")
    for folder in glob.glob(os.path.join(top, "crates/*/*/")):
        if os.path.basename(os.path.dirname(folder)) in NO_SOURCES:
            continue
        for path, folders, files in os.walk(folder):
            folders[:] = [each for each in folders if each not in NO_SOURCES]
            yield path
            yield from (os.path.join(path, file) for file in files if file.endswith((".rt", ".antt")))


def is_built(built: str, since: str, top: str) -> bool:
    """Whether the file `built` is there, and no source's content, name or date has changed since the date of the file `since`."""
    if not (os.path.exists(built) and os.path.exists(since)):
        return False
    begun = os.stat(since).st_mtime_ns
    return all(os.stat(source).st_ctime_ns <= begun for source in sources(top))
