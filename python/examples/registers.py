"""Sweeps the registers of a tile and draws the intervals that `search` finds, as an SVG picture.

    python examples/registers.py OUT.svg
"""

import os
import sys

import cgra

ROOT = os.path.dirname(os.path.dirname(os.path.dirname(os.path.abspath(__file__))))
LOOPS = ["fir5", "sobel", "conv3"]
MOST = 4
OPS = ["const", "iter", "add", "sub", "and", "or", "xor", "shl", "shr", "sar", "eq", "ne", "lts", "ltu", "mins", "maxs", "select", "mul"]
REACHES = ["load", "store", "loadif", "storeif", "input", "output", "outputif"]


def mesh(registers: int) -> cgra.Arch:
    """Returns a mesh of four by four tiles with `registers` registers each, of which ports take those of all neighbours."""
    names = [f"r{n}" for n in range(registers)]
    near = ["f_o"] + names + [f"{side}.r0" for side in "NESW"]
    registers_of = [cgra.Reg(name, ["f_o", name, "r0"] + [f"{side}.r0" for side in "NESW"]) for name in names]
    tiles = {
        "M": registers_of + [cgra.Unit("f", OPS + REACHES, 1, [near] * 3)],
        "A": registers_of + [cgra.Unit("f", OPS, 1, [near] * 3)],
    }
    return cgra.Arch.build(f"mesh_{registers}", ["MAAA"] * 4, tiles, contexts=16, memory=1024)


def intervals(loop: str) -> list:
    """Returns for each number of registers the least interval that no reason excludes, and the one that was found."""
    found = []
    for registers in range(1, MOST + 1):
        arch, kernel = mesh(registers), os.path.join(ROOT, "gallery", "loops", loop + ".json")
        least = cgra.why(arch, kernel).interval
        try:
            interval = cgra.search(arch, kernel, moves=60_000).interval
        except cgra.NotFound:
            interval = None
        print(f"{loop}: {registers} registers a tile: least {least}, found {interval}")
        found.append((registers, least, interval))
    return found


def picture(results: dict) -> str:
    """Returns a picture: for each loop a row of points, the least interval as a ring and the one that was found as a dot."""
    width, height, most = 90 * MOST + 120, 70 * len(results) + 40, 8
    parts = [f'<svg xmlns="http://www.w3.org/2000/svg" width="{width}" height="{height}" font-family="sans-serif" font-size="12">']
    for row, (loop, points) in enumerate(results.items()):
        base = 60 + 70 * row
        parts.append(f'<text x="10" y="{base}">{loop}</text><line x1="80" y1="{base}" x2="{width - 20}" y2="{base}" stroke="#ccc"/>')
        for registers, least, interval in points:
            x = 20 + 90 * registers
            if least is not None:
                parts.append(f'<circle cx="{x}" cy="{base - 50 * least / most:.1f}" r="6" fill="none" stroke="#333"/>')
            if interval is not None:
                y = base - 50 * interval / most
                parts.append(f'<circle cx="{x}" cy="{y:.1f}" r="3" fill="#0072b2"/><text x="{x + 10}" y="{y + 4:.1f}">{interval}</text>')
            parts.append(f'<text x="{x - 4}" y="{height - 10}">{registers}</text>')
    parts.append(f'<text x="10" y="{height - 10}">registers a tile</text></svg>')
    return "\n".join(parts) + "\n"


if __name__ == "__main__":
    if len(sys.argv) != 2:
        sys.exit(__doc__)
    with open(sys.argv[1], "w", encoding="utf-8") as file:
        file.write(picture({loop: intervals(loop) for loop in LOOPS}))
