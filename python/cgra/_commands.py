"""The commands of the program as functions.

An architecture, a kernel, an image, a mapping or bits may be given as a path or as an object: `Arch`, `Kernel`, `Image`,
`Mapping`, `bytes`, or a result that has one. `timeout` ends a call after that many seconds and raises TimedOut.
"""

from __future__ import annotations

from contextlib import contextmanager
from typing import Dict, Iterator, List, Optional, SupportsIndex, Tuple

from ._certificates import optional_certificate
from ._errors import UnknownReport
from ._image import Image
from ._inputs import (
    ArchLike,
    BitsLike,
    ImageLike,
    KernelLike,
    MappingLike,
    NetlistLike,
    Text,
    arch_path,
    bits_path,
    image_path,
    kernel_path,
    mapping_path,
    search_words,
    seed_number,
    turns_word,
)
from ._kernel import Kernel
from ._mapping import Mapping
from ._program import Answer, Folder, OnProgress, PathLike, Setting, call
from ._results import (
    Bench,
    Bound,
    Checked,
    Depended,
    Emitted,
    Flat,
    Found,
    Looped,
    Migrated,
    Ran,
    Reason,
    Shown,
    Simplified,
    Trial,
    Turned,
    Verilog,
    Why,
)
from ._seeds import best_of
from ._violations import Violation, violations_of


@contextmanager
def _reading(answer: Answer) -> Iterator[None]:
    """Turns what goes wrong where a report or an output is read into UnknownReport."""
    try:
        yield
    except (IndexError, KeyError, ValueError, StopIteration, OSError) as error:
        note = f"the report isn't one of this command ({type(error).__name__}: {error})"
        raise UnknownReport(answer.status, answer.report, [*answer.notes, note], answer.words) from error


def _numbers(report: str) -> Dict[str, int]:
    """Returns the numbers of the lines that are a word and a number."""
    pairs = [line.split(" ") for line in report.splitlines()]
    return {pair[0]: int(pair[1]) for pair in pairs if len(pair) == 2 and pair[1].isdigit()}


def _interval(word: str) -> Optional[int]:
    """Returns the interval that a report names, None for the word `none`."""
    return None if word == "none" else int(word)


def bound(arch: ArchLike, kernel: KernelLike, *, timeout: Optional[float] = None) -> Bound:
    """Returns the least interval that no recurrence and no class of units forbids for `kernel` on `arch`."""
    with Folder() as folder:
        answer = call(["bound", arch_path(folder, arch), kernel_path(folder, kernel)], setting=Setting(timeout))
    with _reading(answer):
        lines = answer.report.splitlines() + [""]
        return Bound(_interval(_after("mii ", lines[0])), optional_certificate(lines[1]), answer.report)


def _after(head: str, line: str) -> str:
    """Returns what follows `head` in `line`."""
    if not line.startswith(head):
        raise ValueError(f'"{line}" doesn\'t begin "{head}"')
    return line[len(head):]


def why(arch: ArchLike, kernel: KernelLike, *, timeout: Optional[float] = None) -> Why:
    """Returns the least interval of `kernel` on `arch` that no recurrence, class, ways or registers exclude, and the reasons."""
    with Folder() as folder:
        answer = call(["why", arch_path(folder, arch), kernel_path(folder, kernel)], setting=Setting(timeout))
    with _reading(answer):
        reasons: Dict[str, Reason] = {}
        slots: Optional[Tuple[int, int]] = None
        for line in answer.report.splitlines():
            head, _, text = line.partition(": ")
            kind, word = head.split(" ")
            if kind == "free":
                numbers = text.split(" ")
                slots = (int(numbers[0]), int(numbers[2]))
            else:
                reasons[kind] = Reason(kind, _interval(word), optional_certificate(text))
        least = reasons.pop("least")
        return Why(least.interval, least.certificate, reasons, slots, answer.report)


def _searched(
    command: str,
    arch: ArchLike,
    kernel: KernelLike,
    ii: Optional[SupportsIndex],
    moves: Optional[SupportsIndex],
    setting: Setting,
) -> Found:
    """Calls `search` or `map`, with the seed of `setting`."""
    with Folder() as folder:
        words = [command, arch_path(folder, arch), kernel_path(folder, kernel), folder.path("out.bits")]
        words += ["--mapping", folder.path("out.map"), *search_words(ii, setting.seed, moves)]
        answer = call(words, setting=setting)
        with _reading(answer):
            numbers = _numbers(answer.report)
            by = answer.report.splitlines()[2].split(" ")
            return Found(
                numbers["ii"],
                numbers["stages"],
                by[1],
                int(by[2]) if len(by) > 2 else 0,
                setting.seed,
                folder.read("out.bits"),
                Mapping.from_text(folder.read("out.map")),
                answer.notes,
            )


def search(
    arch: ArchLike,
    kernel: KernelLike,
    *,
    ii: Optional[SupportsIndex] = None,
    seed: SupportsIndex = 1,
    moves: Optional[SupportsIndex] = None,
    seeds: SupportsIndex = 1,
    jobs: Optional[SupportsIndex] = None,
    timeout: Optional[float] = None,
    progress: Optional[OnProgress] = None,
) -> Found:
    """Searches a mapping of `kernel` on `arch` at or near the least interval, or at interval `ii`.

    `moves` are 240,000 where they aren't given. With `seeds` it searches by the seeds from `seed` on, `jobs` of them side by
    side (as many as there are processors), and returns the first mapping, by seed, at the least interval that `why` leaves
    possible (with `ii`, at `ii`); or else that of the least interval, then of the fewest stages, then of the least seed.
    `progress` is called with each `Progress`. Raises NotFound where none was found by any seed, and Impossible where a
    recurrence or a class forbids the interval.
    """

    def by(setting: Setting) -> Found:
        return _searched("search", arch, kernel, ii, moves, setting)

    def least() -> Optional[int]:
        return why(arch, kernel, timeout=timeout).interval if ii is None else ii.__index__()

    search_words(ii, seed, moves)
    return best_of(by, least, Setting(timeout, progress, seed_number(seed)), seeds, jobs)


def walk(
    arch: ArchLike,
    kernel: KernelLike,
    *,
    ii: Optional[SupportsIndex] = None,
    seed: SupportsIndex = 1,
    moves: Optional[SupportsIndex] = None,
    timeout: Optional[float] = None,
    progress: Optional[OnProgress] = None,
) -> Found:
    """Searches a mapping by the written walk (the command `map`), with 10,000 moves at an interval where none are given."""
    setting = Setting(timeout, progress, seed_number(seed))
    return _searched("map", arch, kernel, ii, moves, setting)


def check(arch: ArchLike, kernel: KernelLike, mapping: MappingLike, *, timeout: Optional[float] = None) -> Checked:
    """Judges whether `mapping` is legal for `kernel` on `arch`."""
    answer = _judged("check", arch, kernel, mapping, timeout)
    if answer.status == 0:
        return Checked(True, "", "", answer.notes)
    with _reading(answer):
        rule, place = _after("illegal ", answer.report.splitlines()[0]).split(" ", 1)
        return Checked(False, rule, place, answer.notes)


def violations(
    arch: ArchLike, kernel: KernelLike, mapping: MappingLike, *, timeout: Optional[float] = None
) -> List[Violation]:
    """Returns each place at which `mapping` breaks a rule, at most 1,000; none where it is legal."""
    answer = _judged("violations", arch, kernel, mapping, timeout)
    with _reading(answer):
        return violations_of(answer.report.splitlines())


def _judged(command: str, arch: ArchLike, kernel: KernelLike, mapping: MappingLike, timeout: Optional[float]) -> Answer:
    """Calls `check` or `violations`."""
    with Folder() as folder:
        words = [command, arch_path(folder, arch), kernel_path(folder, kernel), mapping_path(folder, mapping)]
        return call(words, (0, 8), Setting(timeout))


def emit(arch: ArchLike, kernel: KernelLike, mapping: MappingLike, *, timeout: Optional[float] = None) -> Emitted:
    """Returns the bits of a legal mapping; raises Illegal where it isn't."""
    with Folder() as folder:
        words = ["emit", arch_path(folder, arch), kernel_path(folder, kernel), mapping_path(folder, mapping)]
        answer = call([*words, folder.path("out.bits")], setting=Setting(timeout))
        with _reading(answer):
            numbers = _numbers(answer.report)
            return Emitted(numbers["ii"], numbers["stages"], folder.read("out.bits"))


def run(
    arch: ArchLike,
    bits: BitsLike,
    turns: SupportsIndex,
    image: Optional[ImageLike] = None,
    *,
    netlist: Optional[NetlistLike] = None,
    timeout: Optional[float] = None,
) -> Ran:
    """Runs the array `arch` under `bits` for `turns` turns from `image`, an empty one where none is given.

    With `netlist` that netlist of the program's cells runs in the place of the array.
    """
    with Folder() as folder:
        words = ["run", arch_path(folder, arch), bits_path(folder, bits), turns_word(turns)]
        words += [image_path(folder, image), folder.path("out.img")]
        if netlist is not None:
            words += ["--netlist", folder.given(netlist, "array.v")]
        answer = call(words, setting=Setting(timeout))
        with _reading(answer):
            numbers = _numbers(answer.report)
            return Ran(numbers["cycles"], numbers["outside"], Image.read(folder.path("out.img")), answer.notes)


def turns(
    kernel: KernelLike,
    count: SupportsIndex,
    image: Optional[ImageLike] = None,
    *,
    timeout: Optional[float] = None,
) -> Turned:
    """Runs `count` turns of `kernel`, one after the other, from `image`, an empty one where none is given."""
    with Folder() as folder:
        words = ["turns", kernel_path(folder, kernel), turns_word(count), image_path(folder, image)]
        answer = call([*words, folder.path("out.img")], (0, 8), Setting(timeout))
        with _reading(answer):
            outside, pair = _numbers(answer.report)["outside"], None
            if answer.status == 8:
                _, earlier, i, later, j = answer.report.splitlines()[1].split(" ")
                pair = (earlier, int(i), later, int(j))
            left = Image.read(folder.path("out.img"))
            return Turned(outside, answer.status == 0, pair, left, answer.notes)


def depend(kernel: KernelLike, *, timeout: Optional[float] = None) -> Depended:
    """Returns `kernel` with the order edges that its accesses need, whatever the image."""
    with Folder() as folder:
        answer = call(["depend", kernel_path(folder, kernel), folder.path("out.json")], setting=Setting(timeout))
        with _reading(answer):
            numbers = _numbers(answer.report)
            return Depended(numbers["added"], numbers["order"], Kernel.read(folder.path("out.json")))


def simplify(
    kernel: KernelLike, *, copies: bool = False, share: bool = False, timeout: Optional[float] = None
) -> Simplified:
    """Returns a kernel with fewer nodes that leaves the same memory and streams as `kernel`.

    With `copies` the copies of nodes stay; with `share` equal nodes become one even where they depend on the turn alone.
    """
    with Folder() as folder:
        words = ["simplify", kernel_path(folder, kernel), folder.path("out.json")]
        words += ["--copies"] * copies + ["--share"] * share
        answer = call(words, setting=Setting(timeout))
        with _reading(answer):
            (_, given_nodes, nodes), (_, given_order, order) = (line.split(" ") for line in answer.report.splitlines())
            return Simplified(
                int(given_nodes), int(given_order), int(nodes), int(order), Kernel.read(folder.path("out.json"))
            )


def loop(source: PathLike, *, timeout: Optional[float] = None) -> Looped:
    """Returns the kernel of the loop in the file `source`."""
    with Folder() as folder:
        return _looped(folder, folder.given(source, "source.loop"), timeout)


def loop_text(text: str, *, timeout: Optional[float] = None) -> Looped:
    """Returns the kernel of the loop that `text` describes."""
    with Folder() as folder:
        return _looped(folder, folder.given(Text(text), "source.loop"), timeout)


def _looped(folder: Folder, path: str, timeout: Optional[float]) -> Looped:
    """Calls `loop` on the file `path`."""
    answer = call(["loop", path, folder.path("out.json")], setting=Setting(timeout))
    with _reading(answer):
        numbers = _numbers(answer.report)
        return Looped(numbers["nodes"], numbers["order"], Kernel.read(folder.path("out.json")))


def flat(arch: ArchLike, *, timeout: Optional[float] = None) -> Flat:
    """Returns the flat text of `arch`, with its numbers and its digest."""
    with Folder() as folder:
        answer = call(["flat", arch_path(folder, arch), folder.path("out.flat")], setting=Setting(timeout))
        with _reading(answer):
            numbers = _numbers(answer.report)
            digest = next(line.split(" ")[1] for line in answer.report.splitlines() if line.startswith("digest "))
            text = folder.read("out.flat").decode()
            return Flat(numbers["resources"], numbers["units"], numbers["links"], digest, text)


def verilog(arch: ArchLike, *, timeout: Optional[float] = None) -> Verilog:
    """Returns `arch` as structural Verilog."""
    with Folder() as folder:
        answer = call(["verilog", arch_path(folder, arch), folder.path("out.v")], setting=Setting(timeout))
        with _reading(answer):
            numbers = _numbers(answer.report)
            return Verilog(numbers["nets"], numbers["cells"], folder.read("out.v").decode())


def bench(
    arch: ArchLike,
    bits: BitsLike,
    turns: SupportsIndex,
    image: Optional[ImageLike] = None,
    *,
    timeout: Optional[float] = None,
) -> Bench:
    """Returns a test bench for simulators of Verilog: `turns` turns of `arch` under `bits` from `image`."""
    with Folder() as folder:
        words = ["bench", arch_path(folder, arch), bits_path(folder, bits), turns_word(turns)]
        answer = call([*words, image_path(folder, image), folder.path("out.v")], setting=Setting(timeout))
        with _reading(answer):
            numbers = _numbers(answer.report)
            return Bench(numbers["cycles"], numbers["outside"], folder.read("out.v").decode())


def show(arch: ArchLike, kernel: KernelLike, mapping: MappingLike, *, timeout: Optional[float] = None) -> Shown:
    """Returns a legal mapping as a table and as a picture; raises Illegal where it isn't legal."""
    with Folder() as folder:
        words = ["show", arch_path(folder, arch), kernel_path(folder, kernel), mapping_path(folder, mapping)]
        answer = call([*words, folder.path("out.svg")], setting=Setting(timeout))
        with _reading(answer):
            return Shown(answer.report, folder.read("out.svg").decode())


def migrate(arch: ArchLike, bits: BitsLike, *, timeout: Optional[float] = None) -> Migrated:
    """Returns bits of the first format in the current one."""
    with Folder() as folder:
        words = ["migrate", arch_path(folder, arch), bits_path(folder, bits), folder.path("out.bits")]
        answer = call(words, setting=Setting(timeout))
        with _reading(answer):
            numbers = _numbers(answer.report)
            return Migrated(numbers["ii"], numbers["stages"], folder.read("out.bits"))


def trial(seed: SupportsIndex, *, timeout: Optional[float] = None) -> Trial:
    """Maps and runs a random kernel on a fixed architecture."""
    answer = call(["trial", str(seed_number(seed))], setting=Setting(timeout))
    with _reading(answer):
        lines = [line.split(" ", 1) for line in answer.report.splitlines()]
        return Trial({word: value for word, value in lines})
