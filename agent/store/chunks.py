"""Which chunks a casync index names, and where a store keeps them.

Owes the filters that a content's chunks are all counted: what is forgotten is forgotten by this list. The form is that of casync's
`caformat.h`: a header of 48 bytes, a table of one end (u64) and one chunk's name (32 bytes) each, and a tail of 40.
"""
from __future__ import annotations

import os
import struct

from agent.faults import FarmFault

INDEX = 0x96824D9C7B129FF9
TABLE = 0xE75B9E112F17417D
TAIL = 0x4B4F050E5549ECD1
ZSTD = b"\x28\xb5\x2f\xfd"  # what a chunk begins with, as Debian's casync writes it

LARGEST = 1 << 28  # bytes of a chunk: casync's are far smaller


def chunk_names(index: bytes) -> list[str]:
    """The names of an index's chunks, each once, in order. The empty content has none."""
    return list(dict.fromkeys(index[at + 8 : at + 40].hex() for at in table(index)))


def chunk_sizes(index: bytes) -> dict[str, int]:
    """How many bytes each of an index's chunks stands for."""
    sizes, before = {}, 0
    for at in table(index):
        (end,) = struct.unpack_from("<Q", index, at)
        sizes[index[at + 8 : at + 40].hex()] = end - before
        before = end
    return sizes


def folder_size(index: bytes) -> int:
    """The bytes of the folder, with what casync writes of each file."""
    ends = table(index)
    return int(struct.unpack_from("<Q", index, ends[-1])[0]) if ends else 0


def table(index: bytes) -> range:
    """Where the items of an index's table begin."""
    if not index:
        return range(0)
    try:
        size, kind = struct.unpack_from("<QQ", index, 0)
        table_size, table = struct.unpack_from("<QQ", index, size)
        *_, tail = struct.unpack_from("<QQQQQ", index, len(index) - 40)
    except (struct.error, OverflowError):
        raise FarmFault("a content is no index of casync: it is cut short") from None
    items = len(index) - size - 16 - 40
    if (size, kind, table_size, table, tail) != (48, INDEX, 2**64 - 1, TABLE, TAIL) or items < 0 or items % 40:
        raise FarmFault("a content is no index of casync")
    begin = size + 16
    return range(begin, begin + items, 40)


def chunk_path(folder: str, name: str) -> str:
    return os.path.join(folder, name[:4], f"{name}.cacnk")
