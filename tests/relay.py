"""Writes what the program `relay` reads and what it has to print, at the setting for two losses:
crates/relay/stdin and crates/relay/stdout.

    python3 tests/relay.py

The packet is the longest, 8,192 bytes with CF 1: "*ptr" and one item. The fragments are those of
the sender in fragments.py, what each is answered and what is handed out comes from the receiver in
receiver.py. The line's rule is written here anew: neighbours are exchanged, fragments 2, 5, 8, ..
come twice, and 4, 9, .. are lost, as many as that setting assures. Behind each fragment stand those
held, by the answers so far, and what the worst chunk misses: byte q of the block is in fragment q
mod f, and chunk j is the bytes from j n on. None of it is taken from the program. Running this
again gives the same bytes.
"""
import itertools
import pathlib
import sys

sys.dont_write_bytecode = True
import fragments
import packets
import plans
import receiver
import runs
import usage

RELAY = pathlib.Path(__file__).resolve().parent.parent / "crates" / "relay"
NUMBER = 1  # of the packet on the line
_, ASSURED, MTU, _ = plans.TWO_LOSSES
ALLOWED = 48  # bytes that a chunk may miss
BYTES = 8  # missing bytes that a letter of a bar stands for
COLUMN = 23  # where the drawing begins


def line(f):
    """The fragments in the order in which they come, each with the times that it comes: 0 for one that is lost."""
    lost = list(range(4, f, 5))[:ASSURED]
    for first in range(0, f, 2):
        for i in reversed(range(first, min(first + 2, f))):
            yield i, 0 if i in lost else 2 if i in range(2, f, 3) else 1


def shown(answer):
    """An answer of the receiver as a line has it: in words, what a delivery carries, and the packet if one was handed out."""
    name, *words = answer.split(" ")
    if name == "delivered":
        return name, f" {words[0]} bytes, {words[1]} fragments not held", bytes.fromhex(words[3])
    return name if name == "kept" else f"{name} {words[0]}", "", None


def drawn(figures, held):
    """The fragments held, and what the chunk that misses most misses, as a number and a bar of a letter for 8 bytes, with the mark at 48."""
    c, n, f = (figures[name] for name in "cnf")
    worst = max(sum(q % f not in held for q in range(j * n, j * n + n)) for j in range(c))
    bar = "#" * len(range(0, worst, BYTES))
    mark = ALLOWED // BYTES
    return "".join("o" if i in held else "." for i in range(f)) + f" {worst:3} {bar[:mark]:.<{mark}}|{bar[mark:]}"


def printed(packet):
    """The lines that a packet has to give, whatever its bytes are."""
    whole = fragments.sent(True, ASSURED, MTU, b"", NUMBER, packet)
    if isinstance(whole, str):
        return [whole]
    figures = {name: int(figure) for name, figure in (word.split("=") for word in plans.plan(True, ASSURED, MTU, False, len(packet)).split(" ")[1:])}
    lines = [f"packet {len(packet)} bytes: {len(whole)} fragments of {len(whole[0])} bytes, any {ASSURED} may be lost",
             f"{figures['c']} chunks of {figures['n']} bytes; o: held; #: {BYTES} bytes the worst chunk misses; none behind | ({ALLOWED}) is enough"]
    far, handed, held = receiver.Receiver(), None, set()
    for i, times in line(len(whole)):
        for _ in range(times):
            words, more, out = shown(far.answer(runs.recv(whole[i])))
            handed = handed or out
            held |= {i} if words in ("kept", "delivered") else set()
            lines.append(f"fragment {i} {words}".ljust(COLUMN) + drawn(figures, held) + more)
        if not times:
            lines.append(f"fragment {i} lost".ljust(COLUMN) + drawn(figures, held))
    assert handed == packet, len(packet)
    return lines + ["the packet is the one that went in"]


def longest():
    pointer = packets.whole(b"*ptr", b"abcd\0\1\0\0")
    value = bytes(number % 256 for number in itertools.islice(packets.draw(8192), 8192 - 12 - len(pointer) - 8))
    return packets.af(pointer + packets.whole(b"abc_", value))


if __name__ == "__main__":
    usage.help_or_use(__doc__)
    fragments.held()
    runs.held()
    packet = longest()
    assert len(packet) == 8192
    (RELAY / "stdin").write_bytes(packet)
    (RELAY / "stdout").write_text("".join(words + "\n" for words in printed(packet)))
