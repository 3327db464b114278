"""Map loops onto coarse-grained reconfigurable arrays from Python.

The functions call the program `cgra`, whose answers are proved, and return objects. A refusal is an exception with the code,
the name and the place of the fault, and with the notes that the program gives for a person.

    import cgra
    kernel = cgra.loop_text("cgl1; carry s = 0; s = s + in 0; out 0 = s;")
    found = cgra.search("gallery/arrays/adres4.toml", kernel)
    print(found.interval, cgra.bound("gallery/arrays/adres4.toml", kernel).interval)
"""

from ._arch import Arch, Reg, Unit, Wire
from ._certificates import Certificate, Cycle, NoWay, OverfullClass, Registers
from ._commands import (
    bench,
    bound,
    check,
    depend,
    emit,
    flat,
    loop,
    loop_text,
    migrate,
    run,
    search,
    show,
    simplify,
    trial,
    turns,
    verilog,
    violations,
    walk,
    why,
)
from ._errors import (
    BadText,
    CgraError,
    Illegal,
    Impossible,
    Killed,
    Malformed,
    NoProgram,
    NotBuilt,
    NotFound,
    NotText,
    OtherStatus,
    OutOfMemory,
    ReadFault,
    TimedOut,
    UnknownReport,
    UnusableBuild,
    Usage,
    WriteFault,
)
from ._image import Image
from ._inputs import ArchLike, BitsLike, ImageLike, KernelLike, MappingLike, NetlistLike, Text
from ._kernel import Earlier, Kernel, Node
from ._mapping import Mapping, Place
from ._program import Progress, program
from ._results import (
    Bench,
    Bound,
    Checked,
    Depended,
    Emitted,
    Flat,
    Found,
    Looped,
    Migrated,
    Ran,
    Reason,
    Shown,
    Simplified,
    Trial,
    Turned,
    Verilog,
    Why,
)
from ._violations import Left, Violation
from ._words import Words

# The command's own name, which isn't in `__all__`: `from cgra import *` leaves the built-in function as it is.
map = walk

__version__ = "0.9.0"

__all__ = [
    "Arch", "Wire", "Reg", "Unit", "Kernel", "Node", "Earlier", "Image", "Words", "Mapping", "Place", "Text",
    "ArchLike", "KernelLike", "ImageLike", "BitsLike", "MappingLike", "NetlistLike",
    "bench", "bound", "check", "depend", "emit", "flat", "loop", "loop_text", "migrate", "program", "run", "search", "show",
    "simplify", "trial", "turns", "verilog", "violations", "walk", "why",
    "Bench", "Bound", "Checked", "Depended", "Emitted", "Flat", "Found", "Looped", "Migrated", "Progress", "Ran", "Reason",
    "Shown", "Simplified", "Trial", "Turned", "Verilog", "Why",
    "Certificate", "Cycle", "NoWay", "OverfullClass", "Registers", "Left", "Violation",
    "BadText", "CgraError", "Illegal", "Impossible", "Killed", "Malformed", "NoProgram", "NotBuilt", "NotFound", "NotText",
    "OtherStatus", "OutOfMemory", "ReadFault", "TimedOut", "UnknownReport", "UnusableBuild", "Usage", "WriteFault",
]
