"""The file beside a store's journal, as who only looks on reads it (c/store/page.h).

The first page has numbers that all processes share, and who waits. Behind it lies a ring of what was answered last, behind that the
declaration, and behind that the number of each worker's process. Each worker has a lock on a byte far behind the file's end, as long as it is alive.
"""

from __future__ import annotations

import fcntl
import mmap
import os
import struct
from collections import Counter
from typing import Mapping, Optional

from ._errors import StoreError
from ._files import no_stream_is_free, open_file, telling

VERSION = 3
"""Of this file's form."""

_MAGIC = b"wanzoche"
_HEAD = struct.Struct("=8sII")  # the magic, the version, and the length of the declaration
_END_AND_SEGMENT = struct.Struct("=QQ")
_USED, _SLOTS, _RING = 256, 4096, 69632  # where a bit stands for each slot in use, and where the slots and the ring are
_DECLARATION = _RING + 65536 * 32
_SLOT = struct.Struct("=II")  # the word, and the operation
_WAITING, _CALLED = 2, 3  # states of a slot
_PROCESS = struct.Struct("=Q")
_OFD_GETLK = 36
_FLOCK = "hhqqi4x"  # struct flock on Linux with 64 bits
_WORKERS = 1 << 41


class Beside:
    """What one who looks on has of the file. It asks for no more than the right to read, and takes no lock."""

    def __init__(self, path: str) -> None:
        with telling(path, "can't be opened"):
            self.fd = open_file(path, os.O_RDONLY)
            try:
                self._page = self._mapped(path)
            except BaseException:
                os.close(self.fd)
                raise

    def _mapped(self, path: str) -> mmap.mmap:
        head = os.pread(self.fd, _HEAD.size, 0)
        magic, version, self._length = _HEAD.unpack(head.ljust(_HEAD.size, b"\0"))
        if magic != _MAGIC:
            raise StoreError("{} isn't the file that a store has beside its journal".format(path))
        if version != VERSION or os.fstat(self.fd).st_size < _DECLARATION:
            raise StoreError("{} is of version {}, and this package has {}".format(path, version, VERSION))
        with no_stream_is_free():
            return mmap.mmap(self.fd, _RING, access=mmap.ACCESS_READ)

    def declaration(self) -> str:
        """The declaration of the store."""
        return os.pread(self.fd, self._length, _DECLARATION).decode("ascii", "replace").rstrip("\n") + "\n"

    def close(self) -> None:
        """Gives the file back."""
        fd, self.fd = self.fd, -1
        if fd >= 0:
            self._page.close()
            os.close(fd)

    def stamp(self) -> object:
        """What is the same as long as nothing is written and the same ones wait."""
        return self._page[128:144], self._page[_USED : _USED + 128], self.waiting()

    def waiting(self) -> Mapping[int, int]:
        """How many wait for each operation, by its number. Of those that were killed some may be counted on."""
        used = int.from_bytes(self._page[_USED : _USED + 128], "little")
        slots = (_SLOT.unpack_from(self._page, _SLOTS + 64 * number) for number in range(used.bit_length()) if used >> number & 1)
        return Counter(operation for word, operation in slots if word & 7 in (_WAITING, _CALLED))

    def process_of(self, worker: int) -> Optional[int]:
        """The number that a worker's process gave itself; None if it isn't known."""
        place = _DECLARATION + (self._length + 7) // 8 * 8 + _PROCESS.size * worker
        found = os.pread(self.fd, _PROCESS.size, place).ljust(_PROCESS.size, b"\0")
        number: int = _PROCESS.unpack(found)[0]
        return number or None

    def is_gone(self, worker: int) -> bool:
        """Whether a worker has ended or died."""
        return self._is_free(_WORKERS + worker, 1)

    def has_others(self) -> bool:
        """Whether any worker is alive."""
        return not self._is_free(_WORKERS, 0)

    def _is_free(self, place: int, length: int) -> bool:
        """Whether nobody has a lock on these bytes."""
        asked = struct.pack(_FLOCK, fcntl.F_RDLCK, os.SEEK_SET, place, length, 0)
        return bool(struct.unpack(_FLOCK, fcntl.fcntl(self.fd, _OFD_GETLK, asked))[0] == fcntl.F_UNLCK)
