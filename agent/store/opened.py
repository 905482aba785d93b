"""The store that a farm's words name.

Owes the filters nothing.
"""
from __future__ import annotations

from typing import Sequence

from agent.store.folder import FolderStore, Store
from agent.store.redis import RedisStore
from agent.transport.keys import Names
from agent.words import is_bucket


def farm_name(names: Names) -> str:
    """What the farm's keys in Redis begin with."""
    return f"farm-{names.farm}"


def open_store(home: str, brokers: Sequence[str], contents: str | None, names: Names, owner: str = "") -> Store:
    """The folder or bucket of contents that is named; else the brokers' Redis; else a folder of the home."""
    if contents and is_bucket(contents):
        from agent.store.s3 import S3Store  # what it stands on takes a second

        return S3Store(contents, f"{home}/contents", farm_name(names), owner)
    root = contents or f"{home}/contents"
    if not brokers or contents:
        return FolderStore(root)
    if len(brokers) == 1:
        return RedisStore(brokers[0], root, farm_name(names), owner)
    from agent.store.brokers import BrokersStore

    return BrokersStore(brokers, root, farm_name(names), owner)
