"""The engines that are compared, and the shape of pink's drive."""
from __future__ import annotations

from dataclasses import dataclass

# Pages of 4,096 bytes, 64 in a block, 512 blocks; the most pages of values that such a drive
# keeps (`stat` prints it as `limit`); the bytes of a value's pages that are not of the value.
SHAPE = (4096, 64, 512)
LIMIT = 23712
HEADER_BYTES = 32
# Frames for all pages of the index.
FRAMES = 520
# The changes that pink commits together: the entries of a journal page.
GROUP = 127


@dataclass(frozen=True)
class Engine:
    name: str
    title: str
    # The program of bench/peers that serves it; none for pink.
    program: str | None = None
    words: tuple[str, ...] = ()
    # Debian's package, and a header of it.
    package: str | None = None
    header: str | None = None


ENGINES = {
    engine.name: engine
    for engine in (
        Engine("pink", "pink"),
        Engine("leveldb", "LevelDB", "leveldb", ("--bloom",), "libleveldb-dev", "leveldb/db.h"),
        Engine("leveldb-plain", "LevelDB, no filter", "leveldb", (), "libleveldb-dev",
               "leveldb/db.h"),
        Engine("rocksdb", "RocksDB", "rocksdb", ("--bloom",), "librocksdb-dev", "rocksdb/db.h"),
        Engine("rocksdb-plain", "RocksDB, no filter", "rocksdb", (), "librocksdb-dev",
               "rocksdb/db.h"),
        Engine("lmdb", "LMDB", "lmdb", (), "liblmdb-dev", "lmdb.h"),
        Engine("sqlite", "SQLite", "sqlite", (), "libsqlite3-dev", "sqlite3.h"),
        Engine("bdb", "Berkeley DB", "bdb", (), "libdb-dev", "db.h"),
        Engine("map", "a map in memory", "map"),
    )
}


def keys_for(live_percent: int, value_bytes: int) -> int:
    """The count of keys whose values, each in whole pairs of pages, take this share of the space."""
    pages = 2 * -(-(HEADER_BYTES + value_bytes) // (2 * SHAPE[0]))
    return LIMIT * live_percent // 100 // pages
