"""The plugin that nbdkit's Python runs: the volume of a pool's images as a Network Block Device.

Parameters: top=FOLDER (that has the package `front`), and image=PATH for each image.
"""

import sys

import nbdkit

API_VERSION = 2
IMAGES: list = []
SHARED: dict = {}


def config(key, value):
    """Takes a parameter."""
    if key == "top":
        sys.path.insert(0, value)
    elif key == "image":
        IMAGES.append(value)
    else:
        raise RuntimeError(f"unknown parameter {key}")


def thread_model():
    """One request at a time: a script is a line after the other."""
    return nbdkit.THREAD_MODEL_SERIALIZE_ALL_REQUESTS


def after_fork():
    """Opens the pool."""
    from front.blocks import Blocks
    from front.engine import Session

    SHARED["blocks"] = Blocks(lambda: Session(IMAGES))


def cleanup():
    """Ends the pool."""
    if "blocks" in SHARED:
        SHARED.pop("blocks").close()


def open(readonly):  # noqa: A001
    """A connection."""
    return 1


def get_size(handle):
    """The volume's bytes."""
    return SHARED["blocks"].size


def block_size(handle):
    """Least, best and largest request in bytes. Parts of sectors are read before they are written."""
    return (1, 4096, 32 << 20)


def is_rotational(handle):
    """Neighbouring requests are better."""
    return True


def pread(handle, buf, offset, flags):
    """Reads."""
    buf[:] = SHARED["blocks"].read(offset, len(buf))


def pwrite(handle, buf, offset, flags):
    """Writes."""
    SHARED["blocks"].write(offset, bytes(buf))


def zero(handle, count, offset, flags):
    """Writes zeros."""
    SHARED["blocks"].zero(offset, count)


def flush(handle, flags):
    """Makes all durable."""
    SHARED["blocks"].flush()
