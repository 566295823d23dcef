#!/usr/bin/env python3
"""Writes the register file of a stopped guest, as `vmsa explain` reads it.

The registers come from QEMU's gdb stub, or from the text that gdb prints for `info registers`.
"""

import argparse
import re
import socket
import sys
import time

# The keys of a register file in their order, and the names that a target description may have for each.
NEEDED = {
    "sctlr_el1": ("SCTLR_EL1", "SCTLR"),
    "tcr_el1": ("TCR_EL1",),
    "ttbr0_el1": ("TTBR0_EL1",),
    "ttbr1_el1": ("TTBR1_EL1",),
    "mair_el1": ("MAIR_EL1",),
}
OF_EL2 = {
    "hcr_el2": ("HCR_EL2",),
    "vtcr_el2": ("VTCR_EL2",),
    "vttbr_el2": ("VTTBR_EL2",),
}
KEYS = {**NEEDED, **OF_EL2}

TRIES = 3
DEEPEST_INCLUDE = 8
LARGEST_ANSWER = 1 << 18
CHUNK = 0x7F0
STOP_REPLY = re.compile(rb"[TSWX][0-9a-f]{2}")


class Failure(Exception):
    """What is said in one line on standard error."""


class Stub:
    """A connection to a gdb stub; no packet that it sends changes the guest, but for `resume`."""

    def __init__(self, name: str, timeout: float) -> None:
        self.name = name
        self.timeout = timeout
        self.came = bytearray()
        self.deadline = 0.0
        self.socket = connected(name, timeout)

    def byte(self) -> int:
        """The next byte from the stub, until the deadline of the question."""
        if not self.came:
            left = self.deadline - time.monotonic()
            try:
                self.socket.settimeout(max(left, 0.001))
                self.came += self.socket.recv(4096)
            except socket.timeout:
                why = f"{self.name} did not answer in {self.timeout:g} s; is another debugger attached?"
                raise Failure(why) from None
            except OSError as error:
                raise Failure(f"{self.name} broke the connection: {error.strerror}") from None
            if not self.came:
                raise Failure(f"{self.name} closed the connection")
        return self.came.pop(0)

    def send(self, piece: bytes) -> None:
        try:
            self.socket.sendall(piece)
        except OSError as error:
            raise Failure(f"{self.name} broke the connection: {error.strerror}") from None

    def body(self) -> bytes:
        """What comes before the mark of a packet's end."""
        got = bytearray()
        while (byte := self.byte()) != ord("#"):
            got.append(byte)
            if len(got) > LARGEST_ANSWER:
                raise Failure(f"{self.name} sent a packet without end")
        return bytes(got)

    def packet(self) -> "bytes | None":
        """The next packet with a right checksum, acknowledged; None where the stub asks for the question again."""
        for _ in range(TRIES):
            while (byte := self.byte()) != ord("$"):
                if byte == ord("-"):
                    return None
                if byte == ord("%"):  # a notification, which nobody asked for
                    self.body()
            body = self.body()
            said = bytes([self.byte(), self.byte()])
            if said.lower() == checksum(body):
                self.send(b"+")
                return body
            self.send(b"-")
        raise Failure(f"{self.name} sent {TRIES} packets with wrong checksums")

    def ask(self, question: str) -> bytes:
        """The answer to a question. What the stub says of the stop itself, unasked, is passed over."""
        body = question.encode()
        self.deadline = time.monotonic() + self.timeout
        for _ in range(TRIES):
            self.send(b"$" + body + b"#" + checksum(body))
            answer = self.packet()
            while answer is not None and STOP_REPLY.match(answer):
                answer = self.packet()
            if answer is not None:
                return plain(answer)
        raise Failure(f"{self.name} refused a packet {TRIES} times")

    def annex(self, name: str) -> str:
        """A document of the target description, in as many parts as the stub makes of it."""
        text = b""
        while len(text) <= LARGEST_ANSWER:
            part = self.ask(f"qXfer:features:read:{name}:{len(text):x},{CHUNK:x}")
            if part[:1] not in (b"l", b"m") or part == b"m":
                raise Failure(f"{self.name} has no target description {name}, so its registers have no names")
            text += part[1:]
            if part[:1] == b"l":
                return text.decode("utf-8", "replace")
        raise Failure(f"{self.name} sent a target description without end")

    def threads(self) -> "list[str]":
        """The ids of the cores."""
        ids: "list[str]" = []
        part = self.ask("qfThreadInfo")
        while part[:1] == b"m" and len(ids) < LARGEST_ANSWER:
            ids += part[1:].decode("ascii", "replace").split(",")
            part = self.ask("qsThreadInfo")
        return ids

    def value(self, name: str, number: int) -> int:
        """The value of a register; its bytes come least first."""
        digits = self.ask(f"p{number:x}").decode("ascii", "replace")
        if not re.fullmatch(r"([0-9a-fA-F]{2}){1,8}", digits):
            raise Failure(f"{self.name} gave no value of {name}: {digits[:20]!r}")
        return int.from_bytes(bytes.fromhex(digits), "little")

    def resume(self, thread: str) -> None:
        """Detaches. QEMU then runs the guest, also one that its monitor had stopped before."""
        answer = self.ask("D")
        if answer != b"OK":  # an earlier debugger asked for ids with processes, and QEMU keeps to that
            process = thread[1:].split(".")[0] if thread.startswith("p") else "1"
            answer = self.ask(f"D;{process}")
        if answer != b"OK":
            raise Failure(f"{self.name} did not let the guest go: {answer[:20]!r}")


def connected(name: str, timeout: float) -> socket.socket:
    """A connection to HOST:PORT, or to a socket of that path."""
    try:
        if "/" in name:
            to = socket.socket(socket.AF_UNIX)
            to.settimeout(timeout)
            to.connect(name)
            return to
        host, _, port = name.rpartition(":")
        if not port.isdigit() or int(port) > 65535:
            raise Failure(f"{name} is neither HOST:PORT nor the path of a socket")
        to = socket.create_connection((host.strip("[]") or "localhost", int(port)), timeout)
        to.setsockopt(socket.IPPROTO_TCP, socket.TCP_NODELAY, 1)
        return to
    except OSError as error:
        raise Failure(f"no connection to {name}: {error.strerror or error}") from None


def checksum(body: bytes) -> bytes:
    return b"%02x" % (sum(body) % 256)


def plain(body: bytes) -> bytes:
    """The answer without escapes (}) and repeats (*)."""
    out = bytearray()
    rest = iter(body)
    for byte in rest:
        if byte == ord("}"):
            out.append(next(rest, 0x20) ^ 0x20)
        elif byte == ord("*") and out:
            out += out[-1:] * max(next(rest, 29) - 29, 0)
        else:
            out.append(byte)
    return bytes(out)


def described(stub: Stub, name: str, depth: int = 0) -> str:
    """The target description, with what it includes in its place."""
    if depth > DEEPEST_INCLUDE:
        raise Failure(f"the target description of {stub.name} includes itself")
    text = re.sub(r"<!--.*?-->", "", stub.annex(name), flags=re.DOTALL)
    return re.sub(
        r'<xi:include\s[^>]*?href="([^"]+)"[^>]*>',
        lambda found: described(stub, found.group(1), depth + 1),
        text,
    )


def numbers(description: str) -> "dict[str, int]":
    """The number of each register. One without a number of its own follows the one before it."""
    found: "dict[str, int]" = {}
    following = 0
    for tag in re.findall(r"<reg\s([^>]*)>", description):
        fields = dict(re.findall(r'([\w-]+)\s*=\s*"([^"]*)"', tag))
        number = fields.get("regnum", "")
        if number.isdigit():
            following = int(number)
        found.setdefault(fields.get("name", "").upper(), following)
        following += 1
    return found


def chosen(known: "dict[str, int]", where: str) -> "dict[str, str]":
    """For each key that is known the name that it has there."""
    names = {key: next((name for name in KEYS[key] if name in known), "") for key in KEYS}
    if not any(names.values()):
        raise Failure(f"{where} has no system registers of AArch64")
    lacking = [key.upper() for key in NEEDED if not names[key]]
    if lacking:
        raise Failure(f"{where} has no {', '.join(lacking)}")
    return {key: name for key, name in names.items() if name}


def checked(values: "dict[str, int]", where: str) -> "dict[str, int]":
    """The values, unless stage 2 is on (bit 0 of HCR_EL2) and one of its registers isn't there."""
    lacking = [key.upper() for key in OF_EL2 if key not in values]
    if lacking and values.get("hcr_el2", 0) & 1:
        raise Failure(f"{where} has stage 2 on, and no {', '.join(lacking)}")
    return values


def level_of(pstate: int) -> str:
    """Where the core stopped: bits 3 and 2 of PSTATE, with bit 4 for AArch32 and bit 22 for PAN."""
    if pstate & 0x10:
        return "in AArch32"
    return f"at EL{pstate >> 2 & 3}" + (" with PAN" if pstate >> 22 & 1 else "")


def from_stub(name: str, thread: int, resume: bool, timeout: float) -> "tuple[dict[str, int], str]":
    """The values by their keys, and how the core stopped."""
    stub = Stub(name, timeout)
    stub.ask("qSupported:xmlRegisters=aarch64")
    description = described(stub, "target.xml")
    machine = re.search(r"<architecture>\s*([^<\s]*)", description)
    if machine and not machine.group(1).startswith("aarch64"):
        raise Failure(f"the target of {name} is {machine.group(1)}, not aarch64")
    known = numbers(description)
    where = f"the target description of {name}"
    names = chosen(known, where)
    threads = stub.threads() or ["1"]
    if not 1 <= thread <= len(threads):
        raise Failure(f"{name} has {len(threads)} threads, so there is no thread {thread}")
    if stub.ask(f"Hg{threads[thread - 1]}") != b"OK":
        raise Failure(f"{name} refused thread {thread}")
    values = checked({key: stub.value(names[key], known[names[key]]) for key in names}, where)
    stopped = level_of(stub.value("CPSR", known["CPSR"])) if "CPSR" in known else ""
    if resume:
        stub.resume(threads[thread - 1])
    stub.socket.close()
    return values, stopped


def from_gdb(text: str) -> "tuple[dict[str, int], str]":
    """The values in what gdb printed: lines with a name, a value in hexadecimal digits, and more."""
    known: "dict[str, int]" = {}
    for line in text.splitlines():
        found = re.match(r"(?:\(gdb\)\s*)*([A-Za-z]\w*)\s+(0x[0-9a-fA-F]{1,16})(?:\s|$)", line.strip())
        if found:
            name, value = found.group(1).upper(), int(found.group(2), 16)
            if known.setdefault(name, value) != value:
                raise Failure(f"gdb's text has two values of {name}")
    names = chosen(known, "gdb's text")
    stopped = level_of(known["CPSR"]) if "CPSR" in known else ""
    return checked({key: known[name] for key, name in names.items()}, "gdb's text"), stopped


def register_file(values: "dict[str, int]", stopped: str) -> str:
    lines = ["# Registers of the EL1&0 translation regime of one core."]
    if stopped:
        lines.append(f"# The core stopped {stopped}.")
    lines += [f'{key} = "{values[key]:#x}"' for key in KEYS if key in values]
    lacking = [key for key in OF_EL2 if key not in values]
    if lacking:
        lines.append(f"# Not shown, as on a core without EL2, and so 0: {', '.join(lacking)}.")
    return "\n".join(lines) + "\n"


def arguments() -> argparse.Namespace:
    words = argparse.ArgumentParser(
        description="Writes the register file of a stopped guest, as `vmsa explain` reads it.",
        epilog="Attaching stops the guest, and it stays stopped, so that its memory can be dumped in the same state: "
        "`cont` in QEMU's monitor resumes it. With --resume it runs on at once, even where the monitor had stopped it.",
    )
    source = words.add_mutually_exclusive_group(required=True)
    source.add_argument("stub", nargs="?", help="QEMU's gdb stub: HOST:PORT, or the path of a socket")
    source.add_argument("--from-gdb", metavar="FILE", help="text of gdb's `info registers`; - is standard input")
    words.add_argument("--thread", type=int, default=1, metavar="N", help="the core, counted from 1 (the first)")
    words.add_argument("--resume", action="store_true", help="detach, so that QEMU lets the guest run on")
    words.add_argument("--timeout", type=float, default=5.0, metavar="S", help="seconds for each answer (5)")
    words.add_argument("--output", metavar="FILE", help="where to write (standard output)")
    given = words.parse_args()
    if given.from_gdb is not None and (given.resume or given.thread != 1):
        words.error("--resume and --thread go with the stub, not with gdb's text")
    return given


def run(words: argparse.Namespace) -> None:
    if words.from_gdb is None:
        values, stopped = from_stub(words.stub, words.thread, words.resume, words.timeout)
    elif words.from_gdb == "-":
        values, stopped = from_gdb(sys.stdin.read())
    else:
        with open(words.from_gdb, encoding="utf-8", errors="replace") as file:
            values, stopped = from_gdb(file.read())
    if stopped.startswith(("in AArch32", "at EL2", "at EL3")):
        print(f"registers: note: the core stopped {stopped}, where other registers translate", file=sys.stderr)
    text = register_file(values, stopped)
    if words.output is None:
        sys.stdout.write(text)
        sys.stdout.flush()
    else:
        with open(words.output, "w", encoding="ascii") as file:
            file.write(text)


def main() -> int:
    try:
        run(arguments())
    except Failure as failure:
        print(f"registers: {failure}", file=sys.stderr)
        return 1
    except OSError as error:
        print(f"registers: {error.filename or 'output'}: {error.strerror}", file=sys.stderr)
        return 1
    return 0


if __name__ == "__main__":
    sys.exit(main())
