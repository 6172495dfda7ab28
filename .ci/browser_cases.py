"""The commands that the page runs in a browser, and what the program does with each."""

import base64
import pathlib
import random
import subprocess
import tempfile

from packets import packets_of
from rows import DATA, TEXTS, VERBS, WORDS, sample

# No row has more: the page's own limit of words, and texts that would make the page large.
MOST_WORDS, MOST_BYTES, LIMIT = 1000, 100_000, 120
SEED, DISORDERED, SCATTERED = 58, 3000, 64
NAMED = ("out=", "report=")


def is_told(row):
    """Whether a row of the program's table reads and writes names alone, and the page can say its words."""
    words = row["words"]
    has_words = len(words) <= MOST_WORDS and all(isinstance(word, str) for word in words)
    if not has_words or row["given"] or row["out"] or not words or words[0].startswith("--") or "--help" in words:
        return False
    return (not any(word.endswith("=-") or "/" in word for word in words)
            and all(isinstance(content, bytes) and len(content) < MOST_BYTES for content in row["before"].values()))


def scattered(store):
    """The packets of a store out of order: each at most some places from its own."""
    draw, packets = random.Random(SEED), list(packets_of(store))
    order = sorted(range(len(packets)), key=lambda t: t + draw.random() * SCATTERED)
    return b"".join(packets[t] for t in order)


def samples():
    """Commands over the files that ship with the program: a name, the words, and the inputs by name."""
    files = {name: sample(name) for name in ("pass.csv", "fades.csv", "four.rec", "hk.csv", "hk.rec", "hk.store", "loss.csv", "plan.csv", "two.csv", "two.store")}
    lines = ["forecast out=y packets=1000 robust=2 plan=pass.csv script=fades.csv", "forecast out=y packets=10 robust=1 plan=plan.csv script=loss.csv",
             "compress in=hk.rec out=y bits=64 apid=100 robust=2", "compress in=four.rec out=y bits=8 apid=100 robust=1 plan=plan.csv",
             "play in=hk.store out=y report=z script=fades.csv apid=100", "restore in=hk.store out=y report=z bits=64 apid=100",
             "show in=hk.store out=y bits=64 apid=100", "late in=hk.store out=y report=z bits=64 apid=100 window=8",
             "table in=hk.rec out=y report=z fields=hk.csv bits=64", "multi in=two.store out=y report=z streams=two.csv",
             "trial seed=1 packets=500 bits=64 robust=2 out=y"]
    return [(f"sample: {line.split()[0]} {number}", line.split(), {word.split("=")[1]: files[word.split("=")[1]] for word in line.split() if word.split("=")[-1] in files})
            for number, line in enumerate(lines)]


def large(program):
    """A million packets, and a store in disorder."""
    script = "".join(f"drop,{first},{first + first % 5},1\n" for first in range(900, 1_000_000, 997)).encode()
    found = [("a million packets", "forecast out=y packets=1000000 robust=2 plan=p script=s".split(), {"p": b"0,4294967295,20,p\n100,4294967295,100,fr\n", "s": script})]
    draw, value, recording = random.Random(SEED), 0, b""
    for _ in range(DISORDERED):
        value ^= 1 << draw.randrange(64)
        recording += value.to_bytes(8, "big")
    words = "compress in=x out=y bits=64 apid=100 robust=2 plan=s".split()
    store = scattered(ran(program, words, {"x": recording, "s": b"0,4294967295,50,fr\n"})[2]["y"])
    for verb in ("show in=x out=y bits=64 apid=100", "restore in=x out=y report=z bits=64 apid=100", f"late in=x out=y report=z bits=64 apid=100 window={SCATTERED}"):
        found.append((f"a store in disorder: {verb.split()[0]}", verb.split(), {"x": store}))
    return found


def ran(program, words, inputs):
    """What the program does over files: its exit number, the text of the refusal, and what then stands under the names that it writes."""
    with tempfile.TemporaryDirectory(prefix="pocket-browser-") as folder:
        at = lambda name: pathlib.Path(folder, name)
        for name, content in inputs.items():
            at(name).write_bytes(content)
        done = subprocess.run([program, *words], cwd=folder, stdin=subprocess.DEVNULL, capture_output=True, timeout=LIMIT)
        names = [word.partition("=")[2] for word in words if word.startswith(NAMED)]
        outputs = {name: at(name).read_bytes() if at(name).is_file() else b"" for name in names}
    return done.returncode, done.stderr.decode().removeprefix("pocket: ").removesuffix("\n"), outputs


def cases(program):
    """All cases, as the page takes them."""
    rows = [(row["name"], row["words"], row["before"]) for row in [*VERBS, *WORDS, *TEXTS, *DATA] if is_told(row)]
    told, made = lambda bytes_of: {name: base64.b64encode(content).decode() for name, content in bytes_of.items()}, []
    for name, words, inputs in [*rows, *samples(), *large(program)]:
        status, text, outputs = ran(program, words, inputs)
        made.append({"name": f"{name}", "words": words, "inputs": told(inputs), "status": status, "text": text, "outputs": told(outputs)})
    verbs = {case["words"][0] for case in made if case["status"] == 0}
    if len(verbs) != 9:
        raise ValueError(f"the cases have the verbs {sorted(verbs)}")
    return made
