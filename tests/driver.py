"""Lines for tests/c/driver.c, which calls the library by them, and what it prints: worked inputs, wrong arguments, random histories, commands
at a desk, arrivals with more data than a packet has, and a sender and a receiver that are saved."""

from library import PROVED, STRICT, run
from program import TOP
from rows import VERBS

CASES, SEED = 300, 57
HEAP = f"{TOP}/library/heap.c"
# Bits of what is saved.
SAVED = [1, 13, 64, 100, 720, 1024]
# The inputs B0 B1 B1 B3 at bits=8 robust=1, and of each the data, the level and the content.
WORKED = [("B0", "85B8D600", 1), ("B1", "424B8D62", 1), ("B1", "44C0", 2), ("B3", "C085C0", 1)]
# Wrong arguments one by one, each a line and the status that it is answered by.
WRONG = [("open 0 -", "open 5 5"), ("open 49153 -", "open 5 5"), ("open 13 00", "open 6 0"), ("close", None), ("open 13 0001", "open 7 0"),
         ("close", None), ("open 13 FFF8", "open 0 0"), ("open 13 -", "open 3 3"), ("reset 00", "reset 6 0"), ("reset 0001", "reset 7 0"), ("send 0 1 1 12", "sent 8"), ("send 0 1 1 1201", "sent 9"),
         ("send 0 8 1 1238", "sent 10"), ("send 7 1 0 1238", None), ("receive 16384 00", "received 13"), ("close", None),
         ("send 0 1 1 1238", "sent 2"), ("receive 0 00", "received 2"), ("reset -", "reset 2 2")]


def worked():
    """The lines of the worked inputs, once more after a reset, and what they give."""
    lines, found = [], []
    for first in ("open", "reset"):
        lines.append("open 8 -" if first == "open" else "reset -")
        found.append(f"{first} 0 0")
        for number, (given, data, level) in enumerate(WORKED):
            lines.append(f"send 0 1 1 {given}")
            found += [f"sent 0 level {level} data {data}", f"received 0 number {number} lost 0 from 0 kind 0 0 mask 0 content {given}"]
    return lines + ["close"], found + ["counts 0 packets 4 written 4 repeats 0 listed 0 sent 0 4 4 bits 0 8 0 8 closed 0 0 again 2 2"]


def random_case(draw, number):
    """A history: its bits, its first mask or None, its robustness, and of each packet its flags, its fate and its input."""
    bits = [1, 8, 64, 49152][number] if number < 4 else max(1, round(49152 ** draw.random()))
    spare = -bits % 8
    packets = draw.randint(4, 40 if bits < 5000 else 12)
    noise = draw.choice([0, 1, 3, bits, max(1, bits // 8)])
    vector = lambda: draw.getrandbits(bits)
    value, steps = vector(), []
    for _ in range(packets):
        for _ in range(min(noise, 200)):
            value ^= draw.random() < 0.5 and 1 << draw.randrange(bits)
        value = vector() if noise == bits and draw.random() < 0.5 else value
        flags = 0 if draw.random() < 0.6 else draw.randrange(8)
        steps.append((flags, draw.choices([1, 0, 2, 3], [16, 4, 2, 1])[0], text(value << spare, bits)))
    return bits, text(vector() << spare, bits) if draw.random() < 0.4 else None, draw.randrange(8), steps


def text(number, bits):
    return number.to_bytes((bits + 7) // 8, "big").hex().upper()


def lines_of(case):
    """The lines of a history. If the required robustness is odd, some packets and a reset come before it."""
    bits, mask, robust, steps = case
    sends = [f"send {flags} {robust} {fate} {given}" for flags, fate, given in steps]
    begin = [f"open {bits} -", *sends[-3:], f"reset {mask or '-'}"] if robust % 2 else [f"open {bits} {mask or '-'}"]
    return [*begin, *sends[:len(sends) // 2], *["save"] * (bits < 5000), *sends[len(sends) // 2:], "close"]


def long_data(draw):
    """Arrivals of 1 to 65,537 bytes, to a receiver that knows nothing and to one that is in step; most have more than any packet."""
    lines = []
    for bits in (1, 8, 13, 64, 1000):
        size, packet = (bits + 7) // 8, (10 * bits + 50) // 8
        content = text(draw.getrandbits(bits) << -bits % 8, bits)
        for in_step in (False, True):
            lines.append(f"open {bits} -")
            lines += [f"send 7 1 1 {content}"] * (3 if in_step else 0)
            for length in (1, size, packet - 1, packet, packet + 7, packet + 8, packet + 9, packet + 16, 2 * packet + 100):
                for data in (bytes(length), b"\xff" * length, b"\xa5" * length, draw.randbytes(length), draw.randbytes(length)):
                    lines.append(f"receive {draw.randrange(16384)} {data.hex().upper()}")
            for length in (65535, 65536, 65537) if bits in (1, 64) else ():
                lines.append(f"receive {draw.randrange(16384)} {draw.randbytes(length).hex().upper()}")
            lines.append("close")
    return lines


def states(draw):
    """Lines that save in the middle and at the end of each history, and a function that makes, of what they print, lines that go on from
    each state in the middle, and what those print."""
    whole, later = [], []
    for bits in SAVED:
        _, mask, robust, steps = random_case(draw, 5)
        vectors = [text(draw.getrandbits(bits) << -bits % 8, bits) for _ in steps]
        sends = [f"send {flags} {robust} {fate} {vector}" for (flags, fate, _), vector in zip(steps, vectors)]
        half = len(sends) // 2
        whole += [f"open {bits} -", *sends[:half], "save", *sends[half:], "save", "close"]
        later.append((bits, half, [*sends[half:], "save", "close"]))

    def parts(printed):
        lines, wanted, left = [], [], list(printed)
        for bits, half, rest in later:
            ends = next(number for number, line in enumerate(left) if line.startswith("counts "))
            middle = next(number for number, line in enumerate(left) if line.startswith("saved "))
            words = left[middle].split()
            lines += [f"open {bits} -", f"resume {half} {words[3]} {words[6]}", *rest]
            wanted += ["open 0 0", "resumed 0 0", *left[middle + 1:ends + 1]]
            left = left[ends + 1:]
        return lines, wanted

    return whole, parts


def verb_lines():
    """The rows of the program's table that read and write names alone, at a desk in memory: lines, and what they give."""
    lines, found, verbs = [], [], set()
    for row in (it for it in VERBS if not it["given"] and not it["out"] and not it["err"]):
        verbs.add(row["words"][0])
        after = {name: content for name, content in row["after"].items() if content is not None}
        lines += ["desk", *(f"put {name} {content.hex().upper() or '-'}" for name, content in row["before"].items())]
        lines += [*(f"word {word}" for word in row["words"]), "run", *(f"get {name}" for name in after), "end"]
        found += ["desk 0", *("put 0" for _ in row["before"]), *("word 0" for _ in row["words"]), f"ran 0 exit {row['status']} text "]
        found += [*(f"got 0 {len(content)} bytes {content.hex().upper()}" for content in after.values()), "end 0"]
    if len(verbs) != 9:
        raise ValueError(f"the rows have the verbs {sorted(verbs)}")
    return lines, found


def differing(found, wanted):
    """What is wrong with printed lines, or None."""
    for number, pair in enumerate(zip(found, wanted)):
        if pair[1] is not None and pair[0] != pair[1]:
            return f"line {number} is {pair[0][:100]!r}, and not {pair[1][:100]!r}"
    return None if len(found) == len(wanted) else f"there are {len(found)} lines, and not {len(wanted)}"


def ran(words, lines):
    """What a driver prints on these lines."""
    return run(*words, given="".join(line + "\n" for line in lines).encode()).decode().splitlines()


def compile_driver(compiler, library, to, *flags):
    """The driver over a library, by Debian's cross compiler."""
    run(compiler, "-std=c99", *STRICT, "-O2", "-static", *flags, "-o", to, f"{TOP}/tests/c/driver.c", *library)


def by_native(to, tests, *flags):
    """What the proved library of this processor prints of each test, by a driver over it."""
    compile_driver("gcc", [PROVED, HEAP], to, *flags)
    return {name: ran([to], lines) for name, (lines, _) in tests.items()}


def all_tests(draw):
    """The tests, each its lines and what is known of what they give."""
    lines = [line for number in range(CASES) for line in lines_of(random_case(draw, number))]
    return {"the worked inputs": worked(), "wrong arguments": tuple(zip(*WRONG)), f"{CASES} random cases": (lines, None)}
