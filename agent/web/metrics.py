"""A farm's status in the text form that Prometheus reads (version 0.0.4 of its exposition format).

Owes the filters nothing.
"""
from __future__ import annotations

from collections import Counter
from typing import Iterable, NamedTuple

from agent.counts import Sample
from agent.service.operators import Status

HEARD = 30.0  # seconds
KIND = "text/plain; version=0.0.4; charset=utf-8"


class Metric(NamedTuple):
    """One metric: what it means, whether it only rises, and its value for each set of labels."""

    name: str
    meaning: str
    samples: Iterable[tuple[dict[str, str], float]]
    only_rises: bool = False

    def __str__(self) -> str:
        head = f"# HELP {self.name} {self.meaning}\n# TYPE {self.name} {'counter' if self.only_rises else 'gauge'}\n"
        return head + "".join(f"{self.name}{labelled(labels)} {value:.15g}\n" for labels, value in self.samples)


def labelled(labels: dict[str, str]) -> str:
    """Labels as the form spells them."""
    escaped = {name: value.replace("\\", "\\\\").replace('"', '\\"').replace("\n", "\\n") for name, value in labels.items()}
    return "{" + ",".join(f'{name}="{value}"' for name, value in escaped.items()) + "}" if labels else ""


class Counted(NamedTuple):
    """What a count of an agent's is called, what it means, and its type."""

    name: str
    meaning: str
    kind: str


COUNTED = (
    Counted("wait_seconds", "How long asks waited for their grant, as the coordinator's agent saw it.", "histogram"),
    Counted("hold_seconds", "How long leases lived, from grant to end, as the coordinator's agent saw it.", "histogram"),
    Counted("leases_over_total", "Leases that are over: committed, released, ended by an operator or a timeout; and commits that were fenced.", "counter"),
    Counted("commands_total", "Commands of this machine's nodes, by what came of them.", "counter"),
    Counted("chunks_total", "Chunks that were given to a shared store, or got from it.", "counter"),
    Counted("chunk_bytes_total", "Bytes of these chunks, packed.", "counter"),
    Counted("store_seconds", "How long the store took: to keep a content in a folder, to give one to a shared store, to get chunks of it.", "histogram"),
    Counted("store_faults_total", "What the store failed to do.", "counter"),
    Counted("reachable", "Whether the broker, or a store, did what it was asked last.", "gauge"),
    Counted("store_bytes", "Bytes of a store, after the last gc.", "gauge"),
    Counted("store_chunks", "Chunks of a store, after the last gc.", "gauge"),
    Counted("store_contents", "Contents of a store, after the last gc.", "gauge"),
    Counted("store_most_bytes", "What --most-bytes lets a store have.", "gauge"),
    Counted("gc_freed_bytes_total", "Bytes that gc freed of a store.", "counter"),
    Counted("gc_runs_total", "Runs of gc by itself, done or failed.", "counter"),
    Counted("gc_last_seconds", "When the last gc that was done ended, in seconds since 1970.", "gauge"),
)


def of_counts(samples: Iterable[Sample]) -> str:
    """All that agents counted."""
    rows: dict[str, list[str]] = {}
    for sample in samples:
        name = next((each.name for each in COUNTED if sample.name in (each.name, *(f"{each.name}_{end}" for end in ("bucket", "sum", "count")))), "")
        rows.setdefault(name, []).append(f"farm_{sample.name}{labelled(sample.labels)} {sample.value:.15g}\n")
    return "".join(
        f"# HELP farm_{each.name} {each.meaning}\n# TYPE farm_{each.name} {each.kind}\n{''.join(rows[each.name])}" for each in COUNTED if each.name in rows
    )


def of_farm(told: Status) -> str:
    """What the coordinator tells of a farm."""
    leases = Counter(lease.kind for lease in told.leases)
    ages = [told.now - lease.since for lease in told.leases if lease.since]
    return "".join(map(str, (
        Metric("farm_leases", "Leases that live, by kind.", [({"kind": kind}, leases[kind]) for kind in sorted({"plain", "tenure", *leases})]),
        Metric("farm_lease_oldest_seconds", "How long the oldest lease has lived.", [({}, max(ages, default=0.0))]),
        Metric("farm_asks_waiting", "Asks that wait for a folder.", [({}, len(told.waiting))]),
        Metric("farm_ask_oldest_seconds", "How long the oldest ask has waited.", [({}, told.waited)]),
        Metric(
            "farm_snapshots", "Commands that run on a snapshot, and merges that wait.",
            [({"state": state}, sum(each.state == state for each in told.snapshots)) for state in ("running", "merging")],
        ),
        Metric("farm_tickets_total", "Tickets that were given out.", [({}, told.tickets)], only_rises=True),
        Metric(
            "farm_folder_versions_total", "The number of a folder's last version.",
            [({"slot": each.slot}, each.version) for each in told.folders], only_rises=True,
        ),
        Metric(
            "farm_folder_bytes", "Bytes of a folder's last version, where that is known.",
            [({"slot": each.slot}, size) for each in told.folders for version in each.versions[:1] if (size := version.size) is not None],
        ),
        Metric("farm_node_silent_seconds", "Since when a node wasn't heard.", [({"node": node}, told.now - at) for node, at in told.heard.items() if int(node) not in told.gone]),
        Metric("farm_nodes_heard", "Nodes that were heard in the last 30 seconds.", [({}, sum(told.now - at < HEARD for at in told.heard.values()))]),
        Metric("farm_versions", "Versions of all folders together: each takes room for ever.", [({}, told.versions)]),
        Metric("farm_record_bytes", "Bytes of the coordinator's record and its log.", [({}, told.record)]),
        Metric("farm_nodes_retired", "Nodes that were retired.", [({}, len(told.gone))]),
    )))
