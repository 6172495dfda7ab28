"""The table of a recording, worked out from docs/FORMATS.md alone. It shares no code with the program: a packet is a whole number here, and a
field is what is left of it once it is shifted and cut."""


def table(recording, fields, bits):
    """The table and the report of a recording of packets of so many bits, whose fields this text names."""
    size, named, limits = -(-bits // 8), [], {}
    for row in fields.split():
        kind, *values = row.split(",")
        if kind == "field":
            named.append((int(values[0]), int(values[1]), values[2] == "s", values[3]))
        else:
            limits[values[0]] = int(values[1]), int(values[2])
    lines, rows = [",".join(["t"] + [name for _, _, _, name in named])], []
    count = len(recording) // size
    for t in range(count):
        packet = int.from_bytes(recording[t * size:(t + 1) * size], "big") >> 8 * size - bits
        cells = [t]
        for place, width, signed, name in named:
            value = packet >> bits - place - width & (1 << width) - 1
            value -= (signed and value >> width - 1) << width
            cells.append(value)
            low, high = limits.get(name, (value, value))
            if not low <= value <= high:
                rows.append(f"{t},{name},{value},{low},{high}")
        lines.append(",".join(map(str, cells)))
    report = ["t,name,value,low,high", *rows, f"end,{count},{len(rows)}"]
    return "\n".join(lines) + "\n", "\n".join(report) + "\n"
