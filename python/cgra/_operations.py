"""The operations of nodes, as docs/formats.md lists them."""

from __future__ import annotations

from typing import Dict

ARITIES: Dict[str, int] = {
    "const": 1, "iter": 0, "input": 0,
    "add": 2, "sub": 2, "mul": 2, "and": 2, "or": 2, "xor": 2, "shl": 2, "shr": 2, "sar": 2,
    "eq": 2, "ne": 2, "lts": 2, "ltu": 2, "mins": 2, "maxs": 2,
    "select": 3, "load": 1, "store": 2, "output": 1,
    "loadif": 2, "storeif": 3, "outputif": 2,
}

GUARDED = ("loadif", "storeif", "outputif")
WITHOUT_VALUE = ("store", "output", "storeif", "outputif")
WITH_PORT = ("input", "output", "outputif")
OUTPUTS = ("output", "outputif")


def knows(format_name: str, op: str) -> bool:
    """Checks whether the kernel format `format_name` has the operation `op`: `cgk1` has none of the guarded ones."""
    return op in ARITIES and (format_name == "cgk2" or op not in GUARDED)
