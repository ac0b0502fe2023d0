"""Files that are made anew: never one that is there, and never through a link. To be read by scripts."""
import os
import pathlib
import tempfile


def fresh_file(folder, data):
    """A new file in a folder with these bytes, and the leave that new files have; nothing is left where it can not be written."""
    handle, path = tempfile.mkstemp(prefix=".dokyreva.", dir=folder)
    try:
        with os.fdopen(handle, "wb") as file:
            file.write(data)
        os.chmod(path, 0o666 & ~mask())
    except BaseException:
        os.unlink(path)
        raise
    return pathlib.Path(path)


def mask():
    """The bits that new files do not get."""
    bits = os.umask(0)
    os.umask(bits)
    return bits
