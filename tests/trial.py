"""The summary of a trial, worked out from docs/FORMATS.md and the texts of definitions alone. It shares no code with the program: vectors are
whole numbers here, whose lowest bit is the last place, and of a packet only the length is computed."""

import functools
import operator

HEADER = 6


def count_bits(a):
    """The bits of a count."""
    if a == 1:
        return 1
    if a <= 33:
        return 8
    return 3 + 2 * (a - 2).bit_length() - 6


def run_bits(vector):
    """The bits of the run code of a vector: the counts from each one to the next, from the last place down, and an end."""
    zeros = f"{vector:b}"[::-1].split("1")[:-1]
    return 2 + sum(count_bits(len(between) + 1) for between in zeros)


def draws(seed):
    while True:
        seed = (1664525 * seed + 1013904223) % 2**32
        yield seed >> 16


def history(seed, packets, f):
    """Inputs and copies."""
    draw = draws(seed)
    inputs, copies = [0], [1]
    for _ in range(1, packets):
        g, h = next(draw), next(draw)
        vector = inputs[-1] ^ 1
        if g % 4 == 0:
            vector ^= 1 << (f - 1 - (g // 4) % f)
        inputs.append(vector)
        copies.append({0: 0, 1: 2}.get(h % 16, 1))
    return inputs, copies


def union(vectors):
    """The ones of any of these."""
    return functools.reduce(operator.or_, vectors, 0)


def packet_bits(f, mask, recent, level, twice, send, whole):
    """The bits of a packet, by its mask, what changed in it of late, its level, whether two new masks are recent, and what is sent."""
    bits, wide = run_bits(recent) + 5, mask
    if level > 0 and recent:
        bits += 1
        if recent & ~mask:
            bits += recent.bit_count() + 1
            wide |= recent if twice else 0
    if send or whole:
        bits += 1
    if send:
        bits += run_bits(mask ^ (mask << 1 & (1 << f) - 1))
    return bits + (1 + count_bits(f) + f if whole else send + wide.bit_count())


def trial(seed, packets, f, robust):
    inputs, copies = history(seed, packets, f)
    size = (f + 7) // 8
    masks, changes, new = [0], [], []
    store = played = written = listed = 0
    last, last_arrival = None, max(t for t in range(packets) if copies[t])
    for t in range(packets):
        forced = t <= robust
        send, whole = forced or t % 50 == 0, forced or t % 100 == 0
        new.append(t % 20 == 0 and not forced)
        # The mask by its closed form: what moved since the second latest new mask. There is one for every 20th packet.
        marks = [s for s in range(t, max(0, t - 64), -1) if new[s]]
        since = marks[1] if len(marks) > 1 else 0
        masks.append(union(inputs[i] ^ inputs[i - 1] for i in range(since + 1, t + 1)))
        changes.append(masks[-1] ^ masks[-2])
        level = robust
        while level < max(robust, min(15, t)) and changes[t - level - 1] == 0:
            level += 1
        twice = sum(new[max(0, t - level):]) >= 2
        packet = HEADER + (packet_bits(f, masks[-1], union(changes[max(1, t - robust):]), level, twice, send, whole) + 7) // 8
        store += packet
        played += packet * copies[t]
        if copies[t] and ((send and whole) or (last is not None and t - 1 - last <= level)):
            written += 1
            last = t
        elif t <= last_arrival:
            listed += 1
    numbers = [("packets", packets), ("recording", packets * size), ("store", store), ("played", played)]
    numbers += [("delivered", sum(1 for k in copies if k)), ("written", written), ("listed", listed)]
    return numbers
