"""The fields of a shot record that its map byte announces (documents 01 and 02)."""

TABLE, LEGACY, LEAST_WEIGHT = 1 << 3, 1 << 4, 1 << 5  # bits of the map byte


def offsets(given):
    """Of the table, the least weight and rows in a record with this map byte; a field that is left out takes no bytes."""
    table = 1 + 4 * bin(given & 7).count("1")
    least_weight = table + (4 * 511 if given & TABLE else 0)
    return table, least_weight, least_weight + (4 if given & LEAST_WEIGHT else 0)


def without(data, bit):
    """The record with this bit of the map byte clear and without its field; the legacy flag has none."""
    table, least_weight, rows = offsets(data[0])
    start, end = {TABLE: (table, least_weight), LEGACY: (1, 1), LEAST_WEIGHT: (least_weight, rows)}[bit]
    return bytes([data[0] & ~bit]) + data[1:start] + data[end:]
