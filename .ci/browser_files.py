"""The files that the page is given in a browser, and what the program makes of them."""

import array
import os
import pathlib
import random
import re

from browser_cases import ran
from packets import packets_of
from rows import sample

MILLION, GIGABYTE = 1_000_000, 1 << 30
STRETCHES = 11_264
SEED = 70
FIELDS, PACKETS = 40, 100_000


def put(folder, name, content):
    """Writes a file, and gives its path."""
    path = pathlib.Path(folder, name)
    path.write_bytes(content)
    return str(path)


def sparse(folder, name, front, every=GIGABYTE):
    """A file of a gigabyte that begins with these bytes, and has them again after every so many; all else are zeros."""
    path = os.path.join(folder, name)
    with open(path, "wb") as file:
        for place in range(0, GIGABYTE - len(front), every):
            file.seek(place)
            file.write(front)
        file.truncate(GIGABYTE // every * every)
    return path


def store_of(program, count, apid=100):
    """A store of so many packets of which nine in a hundred were lost."""
    words = array.array("Q", (t * 0x10001 for t in range(count)))
    words.byteswap()
    plan = b"0,4294967295,20,p\n45,4294967295,45,fr\n"
    store = ran(program, f"compress in=r out=s bits=64 apid={apid} robust=2 plan=p".split(), {"r": words.tobytes(), "p": plan})[2]["s"]
    return ran(program, f"play in=s out=t report=u script=l apid={apid}".split(), {"s": store, "l": b"drop,5,%d,11\n" % (count - 1)})[2]["t"]


def report_of(program, store, apid=100):
    """The report of a store's APID."""
    return ran(program, f"restore in=t out=o report=u bits=64 apid={apid}".split(), {"t": store})[2]["u"].decode()


def answers_of(program, folder):
    """A store of two APIDs, with three packets damaged, and what the page is to say of it: the third of them, and which APID lost most."""
    packets = [bytearray(it) for it in packets_of(store_of(program, 300, 101))]
    for packet in packets[50:151:50]:
        packet[6] ^= 0x40
    store, lost = store_of(program, 200) + b"".join(packets), [len(range(5, count, 11)) for count in (200, 300)]
    first, bit = re.findall(r"^(\d+),\d+,wrong,(\d+)$", report_of(program, store, 101), re.M)[2]
    return put(folder, "answers.store", store), f"{first} from bit {bit}", f"{sum(lost)} lost, most of them of APID 101 ({lost[1]})"


def kept_of(program, folder):
    """Texts and a recording, and what is to be in each file that the page saves of them."""
    texts = {"plan": sample("plan.csv"), "script": sample("loss.csv"), "fields": sample("hk.csv")}
    forecast = ran(program, "forecast out=y packets=60 robust=2 plan=p script=s".split(), {"p": texts["plan"], "s": texts["script"]})[2]["y"]
    table = ran(program, "table in=r out=t report=o fields=f bits=64".split(), {"r": sample("hk.rec"), "f": texts["fields"]})[2]
    wanted = {"schedule.csv": texts["plan"], "losses.csv": texts["script"], "fields.csv": texts["fields"], "forecast.csv": forecast, "table.csv": table["t"], "limits.csv": table["o"]}
    paths = {name: put(folder, f"{name}.csv", content) for name, content in texts.items()}
    return {**paths, "recording": put(folder, "hk.rec", sample("hk.rec")), "wanted": wanted}


def files(program, folder):
    """All of them, by their names."""
    draw = random.Random(SEED)
    names = [f"f{number}" for number in range(FIELDS)]
    fields = "".join(f"field,{8 * place},8,u,{name}\n" for place, name in enumerate(names)) + "".join(f"limit,{name},0,252\n" for name in names[::3])
    million = store_of(program, MILLION)
    arrived, written = report_of(program, million).split("\nend,")[1].split(",")[:2]
    header = bytes([0, 5, 0xC0, 0, 0xFF, 0xFF])
    return {
        "million": put(folder, "million.store", million), "million_told": (int(arrived), int(written)), "answers": answers_of(program, folder), "small": put(folder, "small.store", sample("hk.store")),
        "lossy": put(folder, "lossy.store", store_of(program, 11 * STRETCHES)),
        "forty": put(folder, "forty.rec", draw.randbytes(FIELDS * PACKETS)), "forty_fields": put(folder, "forty.csv", fields.encode()),
        "rows": put(folder, "rows.csv", "".join(f"{100 * t},{100 * t + 50},7,p\n" for t in range(10_000)).encode()),
        "zeros": sparse(folder, "zeros.store", b""), "random": sparse(folder, "random.store", draw.randbytes(1 << 23)),
        "long": sparse(folder, "long.store", header, 65_542), "broken": os.path.join(folder, "broken.html"), **kept_of(program, folder),
    }
