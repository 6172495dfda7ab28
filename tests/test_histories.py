"""Random histories with losses, through the module and through the program. The packets of a Sender are the store that `compress` writes,
what a Receiver finds, contents too, is what `show` lists, and those contents and counts are what `restore` gives; every other history is sent
and received after another one and a reset. At a desk in memory `compress` and `show` write the same. Each history is that of its seed."""

import functools
import os
import pathlib
import random
import tempfile
from concurrent.futures import ThreadPoolExecutor

import library
from pocket import Kind, Receiver, Sender, SpacePacket, packed, run
from pocket.__main__ import lines
from program import PROGRAM

HISTORIES, APID = 1000, 100
# What the program writes on standard output.
ran = functools.partial(library.run, PROGRAM)


def history(draw):
    """Bits, inputs, flags, required robustness, first mask and the copies of each packet that arrive."""
    bits = draw.choice([1, 2, 7, 8, 9, 13, 31, 64, 65, 100, 257, 1024]) if draw.random() < 0.95 else draw.choice([4096, 49152, round(49152 ** draw.random())])
    number, spare = draw.randint(1, 40), -bits % 8
    places = [draw.randrange(bits) for _ in range(draw.randint(0, 12))]
    current, inputs = draw.getrandbits(bits), []
    for _ in range(number):
        for place in places:
            if draw.random() < 0.3:
                current ^= 1 << place
        if draw.random() < 0.03:
            current = draw.getrandbits(bits)
        inputs.append((current << spare).to_bytes((bits + 7) // 8, "big"))
    chances = [draw.choice([0, 0.05, 0.3]) for _ in "pfr"]
    flags = [[draw.random() < chance for chance in chances] for _ in range(number)]
    robust = [draw.randint(0, 7) if draw.random() < 0.1 else draw.randint(0, 2) for _ in range(number)]
    loss = draw.choice([0, 0.1, 0.4])
    copies = [0 if draw.random() < loss else draw.choice([1, 1, 1, 2]) for _ in range(number)]
    mask = (draw.getrandbits(bits) << spare).to_bytes((bits + 7) // 8, "big") if draw.random() < 0.3 else b""
    return bits, inputs, flags, robust, mask, copies


def damaged(draw, data):
    """The data of a packet, of which some have a wrong bit or are cut."""
    kind = draw.random()
    if kind < 0.03:
        at = draw.randrange(len(data) * 8)
        return (int.from_bytes(data, "big") ^ 1 << at).to_bytes(len(data), "big")
    return data[:draw.randint(1, len(data))] if kind < 0.05 else data


def plan(flags, robust):
    """The schedule of these flags and required robustnesses."""
    rows = [f"{t},{t},1," + "".join(letter for letter, isset in zip("pfr", three) if isset) for t, three in enumerate(flags) if any(three)]
    return "\n".join(rows + [f"robust,{t},{t},1,{value}" for t, value in enumerate(robust)]) + "\n"


def shown(listing):
    """The lines of `show` as lines of the module: of a written packet the content alone, and no mask."""
    for line in listing.splitlines():
        words = line.split()
        if words[1:2] == ["written"]:
            yield f"{words[0]} written {words[5]}"
        elif "mask" in words:
            yield line[:line.index(" mask")]
        else:
            yield line


def differs(seed, folder):
    """What differs in the history of a seed, or None."""
    draw = random.Random(seed)
    bits, inputs, flags, robust, mask, copies = history(draw)
    at = lambda name: pathlib.Path(folder, f"{seed}.{name}")
    at("rec").write_bytes(b"".join(inputs))
    at("plan").write_text(plan(flags, robust))
    first = ["mask=" + mask.hex()] if mask else []
    store = ran("compress", f"in={at('rec')}", "out=-", f"bits={bits}", f"apid={APID}", "robust=0", f"plan={at('plan')}", *first)
    words = ("compress", "in=rec", "out=store", f"bits={bits}", f"apid={APID}", "robust=0", "plan=plan", *first)
    if run(*words, inputs={"rec": b"".join(inputs), "plan": plan(flags, robust).encode()}) != {"store": store}:
        return "the store at a desk"
    with Sender(bits, mask if seed % 2 else b"") as sender:
        if seed % 2 == 0:
            for one in inputs[::-1]:
                sender.send(one, seed % 8, whole=draw.random() < 0.1)
            sender.reset(mask)
        sent = [sender.send(one, value, new_mask=p, send_mask=f, whole=r).data for one, value, (p, f, r) in zip(inputs, robust, flags)]
    if store != b"".join(packed(SpacePacket(APID, t, data)) for t, data in enumerate(sent)):
        return "the store"
    arrived = [(t, damaged(draw, data)) for t, data in enumerate(sent) for _ in range(copies[t])]
    played = b"".join(packed(SpacePacket(APID, t, data)) for t, data in arrived)
    at("played").write_bytes(played)
    listing = ran("show", f"in={at('played')}", "out=-", f"bits={bits}", f"apid={APID}").decode()
    if run("show", "in=played", "out=listing", f"bits={bits}", f"apid={APID}", inputs={"played": played}) != {"listing": listing.encode()}:
        return "the listing at a desk"
    with Receiver(bits) as receiver:
        if seed % 2 == 0:
            for t, data in arrived[::-1]:
                receiver.receive(t, data)
            receiver.reset()
        found = [receiver.receive(t, data) for t, data in arrived]
        counts = receiver.counts()
    end = f"end {counts.packets} {counts.written} {counts.repeats}"
    if [line for one in found for line in lines(one)] + [end] != list(shown(listing)):
        return "the verdicts"
    contents = ran("restore", f"in={at('played')}", "out=-", f"report={at('report')}", f"bits={bits}", f"apid={APID}")
    if contents != b"".join(one.content or b"" for one in found) or not at("report").read_text().endswith(end.replace(" ", ",") + "\n"):
        return "what is restored"
    masks = [one.mask_alone for one in found if one.kind in (Kind.UNSYNCED, Kind.GAP)]
    listed = ["mask" in line for line in listing.splitlines() if line.split()[1] in ("gap", "unsynced")]
    return None if masks == listed else "the masks that became known"


class Histories(library.LibraryTest):
    def test_histories(self):
        folder = self.enterContext(tempfile.TemporaryDirectory(prefix="pocket-histories-"))
        with ThreadPoolExecutor(os.cpu_count()) as pool:
            found = enumerate(pool.map(lambda seed: differs(seed, folder), range(HISTORIES)))
        self.assertEqual([f"history {seed}: {wrong} differ" for seed, wrong in found if wrong], [])
