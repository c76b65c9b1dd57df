"""The table of docs/PERFORMANCE.md, made from the files of bench/results."""
import csv
import re
from dataclasses import dataclass
from pathlib import Path


@dataclass(frozen=True)
class Figure:
    """What the last row of a file that fits says: its columns in braces. Conditions are regular expressions. Where a column has
    several numbers, `part` is the place of the one that is meant."""

    file: str
    where: dict[str, str]
    text: str
    part: int | None = None

    def read(self, folder: Path) -> str:
        """Returns the figure, or nothing where the file has none."""
        path = folder / f"{self.file}.csv"
        if not path.exists():
            return ""
        with path.open(encoding="ascii") as file:
            rows = list(csv.DictReader(line for line in file if not line.startswith("#")))
        fits = [row for row in rows if all(re.fullmatch(value, row.get(key, "")) for key, value in self.where.items())]
        columns = re.findall(r"{([^}]+)}", self.text)
        if not fits or not all(fits[-1].get(column) for column in columns):
            return ""
        if self.part is not None:
            return short(re.findall(r"\d+", fits[-1][columns[0]])[self.part])
        return re.sub(r"{([^}]+)}", lambda column: short(fits[-1][column.group(1)]), self.text)


@dataclass(frozen=True)
class Row:
    """A kind of work, what uucpair takes, and what its peers do."""

    work: str
    ours: Figure | str
    peers: tuple[tuple[str, Figure], ...] = ()
    is_quotient: bool = True

    def cells(self, folder: Path) -> list[str]:
        """Returns the cells, or none where nothing was measured."""
        ours = self.ours if isinstance(self.ours, str) else self.ours.read(folder)
        peers = [(name, said, figure) for name, figure in self.peers if (said := figure.read(folder))]
        if not ours or self.peers and not peers:
            return []
        files = dict.fromkeys(figure.file for figure in (self.ours, *(f for _, _, f in peers)) if isinstance(figure, Figure))
        ratio = quotient(ours, peers[0][1]) if peers and self.is_quotient else ""
        return [self.work, ours, "; ".join(f"{name} {said}" for name, said, _ in peers), ratio, ", ".join(files)]


@dataclass(frozen=True)
class Quotient:
    """A kind of work of whose figures the quotient alone was kept."""

    work: str
    peer: str
    figure: Figure

    def cells(self, folder: Path) -> list[str]:
        """Returns the cells, or none where nothing was measured."""
        ratio = self.figure.read(folder)
        return [self.work, "", self.peer, ratio, self.figure.file] if ratio else []


def short(cell: str) -> str:
    """Returns a cell without its spread, with commas in great numbers."""
    cell = re.sub(r" \(.*\)", "", cell).replace(" and ", " to ")
    return re.sub(r"(?<![\d.])\d{4,}", lambda number: f"{int(number.group()):,}", cell)


def quotient(one: str, other: str) -> str:
    """Returns the greatest number of a cell divided by that of another."""
    first, second = (max(float(number) for number in re.findall(r"[\d.]+", text.replace(",", ""))) for text in (one, other))
    return f"{first / second:.2f}"


def processor_rows() -> list[Row | Quotient]:
    """Seconds of the processor."""
    rows: list[Row | Quotient] = [
        Quotient(work, "a C program", Figure("scan", {"stream": stream, "bytes": size}, "{uucpair_to_c}"))
        for work, stream, size in (
            ("`scan`, 64 MiB of mixed packets", "mixed", "67108864"),
            ("`scan`, 32 MiB of control packets", "control", "33554432"),
            ("`scan`, 1 MiB, the worst case", "worst", "1048576"),
        )
    ]
    for mib in (1, 16):
        where = {"line": "clean", "bytes": str(mib << 20)}
        peer = Figure("pair", where, "{uucico_cpu}")
        rows.append(Row(f"`pair`, {mib} MiB, 7 x 64", Figure("pair", where, "{uucpair_cpu}"), (("pipes", peer),)))
    for size in ("64", "1024"):
        where = {"size": size, "option": "--no-digest"}
        peers = (("pipes", Figure("call", where, "{uucico_pipes}")), ("socket", Figure("call", where, "{uucico_socket}")))
        rows.append(Row(f"`call`, 8 MiB, 7 x {short(size)}", Figure("call", where, "{uucpair}"), peers))
    for size in ("64", "1024"):
        alone = (("without", Figure("call", {"size": size, "option": "--no-digest"}, "{uucpair}")),)
        rows.append(Row(f"digests, 8 MiB, 7 x {short(size)}", Figure("call", {"size": size, "option": ""}, "{uucpair}"), alone))
    for files in ("64 MiB", "64 MiB both ways"):
        ours, plain, taylor = (
            Figure("memory", {"files": files, "ends": ends}, "{processor}") for ends in ("uucpair", "uucpair --no-digest", "uucico")
        )
        rows.append(Row(f"`call`, {files}, 7 x 1,024", ours, (("socket", taylor), ("`--no-digest`", plain))))
    drawn, alone = (Figure("ladder", {"drawing": drawing}, "{seconds}") for drawing in ("--ladder", "alone"))
    return [*rows, Row("`play --ladder`, 100,000 events", drawn, (("`play`", alone),))]


def slow_rows() -> list[Row]:
    """Seconds of a call on a slow line."""
    rows = []
    for load, packets in (("file", "7x64"), ("file", "7x1024"), ("mails", "7x64"), ("mails", "7x1024")):
        ours, taylor = (Figure("half_duplex", {"load": load, "ends": ends}, f"{{{packets}}}") for ends in ("uucpair --speed", "Taylor"))
        others = [(name, Figure("peers", {"program": name}, "{half duplex}")) for name in ("ZMODEM", "Kermit")]
        peers = (("uucico", taylor), *(others if (load, packets) == ("file", "7x1024") else ()))
        rows.append(Row(f"1,200 bit/s half duplex, {load}, {told(packets)}", ours, peers))
    for bits in ("1200", "9600"):
        for packets in ("7x64", "7x1024"):
            ours, taylor = (
                Figure("slow_lines", {"bits": bits, "caller": ends, "called": ends}, f"{{{packets}}}") for ends in ("uucpair", "Taylor")
            )
            rows.append(Row(f"wire, {short(bits)} bit/s, {told(packets)}", ours, (("uucico", taylor),)))
    for packets in ("7x64", "7x1024"):
        rows.append(Row(f"960 bit/s, an answer takes 20 s, {told(packets)}", long_way(packets, 0)))
    return rows


def long_way(packets: str, part: int) -> Figure:
    """Returns the seconds, or the bytes, of a file on the line with a long delay."""
    return Figure("long_way", {"timeout": "10", "speed": "960"}, f"{{{packets}}}", part)


def told(packets: str) -> str:
    """Returns a window and a packet size as the table has them."""
    window, size = packets.split("x")
    return f"{window} x {short(size)}"


def noisy_rows() -> list[Row]:
    """What becomes of files on a line that loses or garbles bytes."""
    rows = []
    for one_in in ("1000", "300", "100", "70"):
        where = {"one byte lost in": one_in, "sender": "Taylor"}
        some = Figure("losses", {**where, "done": "[1-9].*"}, "{done} of {sessions}, {seconds} s")
        none = Figure("losses", {**where, "done": "0"}, "{done} of {sessions}")
        ours = Figure("losses", {**where, "sender": "uucpair"}, some.text)
        rows.append(Row(f"one byte in {short(one_in)} lost: done", ours, (("uucico sends:", some), ("uucico sends:", none)), False))
    for size, option in ((64, " --size 64"), (1_024, "")):
        ours, plain, taylor = (
            Figure("garbled", {"ends": ends}, "{files whole}, {wrong} wrong")
            for ends in (f"uucpair{option}", f"uucpair{option} --no-digest", "Taylor 64")
        )
        peers = (("`--no-digest`:", plain), *([("uucico calls:", taylor)] if size == 64 else []))
        rows.append(Row(f"one byte in 1,000 garbled, {size:,}: files whole", ours, peers, False))
    return rows


def byte_rows() -> list[Row]:
    """Bytes on the line, and sizes."""
    rows = []
    for size in ("64", "1024"):
        ours, called, taylor = (
            Figure("mails", {"size": size}, f"{{{ends}}}") for ends in ("uucpair calls Taylor", "Taylor calls uucpair", "Taylor calls Taylor")
        )
        rows.append(Row(f"bytes of five mails, 3 x {short(size)}", ours, (("two uucico", taylor), ("uucico calls", called))))
    others = [(name, Figure("peers", {"program": name}, "{bytes}")) for name in ("ZMODEM", "Kermit")]
    rows.append(Row("bytes of a file of 20,000, 7 x 1,024", long_way("7x1024", 1), tuple(others)))
    for data, size, most, told in (
        ("resume", "60000", "30000", "60,000 cut at 30,000"),
        ("resume_half_duplex", "60000", "30000", "the same, half duplex"),
        ("resume", "1000000", "100000", "1,000,000 cut at 100,000"),
    ):
        ours, *others = (
            (name, Figure(data, {"size": size, "cut after": most, "program": name}, "{bytes} in {sessions}"))
            for name in ("uucpair", "uucico", "ZMODEM", "Kermit")
        )
        rows.append(Row(f"bytes, sessions: {told}", ours[1], tuple(others), False))
    for files in ("64 MiB", "64 MiB both ways"):
        ours, taylor = (Figure("memory", {"files": files, "ends": ends}, "{caller}; {called}") for ends in ("uucpair", "uucico"))
        rows.append(Row(f"KiB of memory: {files}", ours, (("uucico", taylor),)))
    sizes = [(name, Figure("size", {"program": name}, "{bytes}")) for name in ("uucico", "sz", "kermit")]
    rows.append(Row("bytes of the program", Figure("size", {"program": "uucpair"}, "{bytes}"), tuple(sizes)))
    return [*rows, Row("first build, seconds of all crates", Figure("build", {}, "{seconds}"))]


def table_of(folder: Path) -> str:
    """Returns the table."""
    rows = [cells for row in [*processor_rows(), *slow_rows(), *noisy_rows(), *byte_rows()] if (cells := row.cells(folder))]
    head = ["Work", "uucpair", "Peers", "Ratio", "Data"]
    lines = ["".join(f"| {cell} " if cell else "| " for cell in cells) + "|\n" for cells in [head, *rows]]
    return "".join([lines[0], "|---" * len(head) + "|\n", *lines[1:]])
