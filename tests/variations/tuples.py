"""Tuples of the tables gvar and cvar: packed numbers of points, packed deltas, and how much of a tuple holds. A plain
reader, written from OpenType's chapter on common formats and this project's rules alone."""
from axes import ONE, share_of


class Broken(Exception):
    """A defect of packed bytes, at a place."""


class Bytes:
    """Bytes of a table from a place to an end; a byte that is not there is a defect at the end."""

    def __init__(self, data, end):
        self.data, self.end = data, end

    def unsigned(self, at, size=1):
        if at + size > self.end:
            raise Broken(self.end)
        return int.from_bytes(self.data[at : at + size], "big")

    def signed(self, at, size=1):
        number = self.unsigned(at, size)
        return number - (number >> 8 * size - 1 << 8 * size)


def point_numbers(data, at, most):
    """Returns the numbers of points at a place, None for all points, and the place behind them."""
    count, start = data.unsigned(at), at
    at += 1
    if count == 0:
        return None, at
    if count & 0x80:
        count, at = (count & 0x7F) << 8 | data.unsigned(at), at + 1
    if count > most:
        raise Broken(start)
    numbers, last = [], -1
    while len(numbers) < count:
        run = data.unsigned(at)
        size, at = 2 if run & 0x80 else 1, at + 1
        for _ in range(min((run & 0x7F) + 1, count - len(numbers))):
            number = max(last, 0) + data.unsigned(at, size)
            if not last < number <= 65535:
                raise Broken(at)
            numbers.append(number)
            last, at = number, at + size
    return numbers, at


def deltas(data, at, count):
    """Returns so many deltas at a place, and the place behind them."""
    found = []
    while len(found) < count:
        run, start = data.unsigned(at), at
        size, length = 0 if run & 0x80 else 2 if run & 0x40 else 1, (run & 0x3F) + 1
        at += 1
        if len(found) + length > count:
            raise Broken(start)
        for _ in range(length):
            found.append(data.signed(at, size) if size else 0)
            at += size
    return found, at


def on_tuple(coordinates, peaks, region):
    """Returns how much of a tuple holds, from 0 to 65536; the region of its own is a list of starts and ends, or
    None."""
    share = ONE
    for axis, (at, peak) in enumerate(zip(coordinates, peaks)):
        if peak == 0:
            continue
        if at == 0:
            return 0
        if at == peak:
            continue
        if region is None:
            if not min(0, peak) <= at <= max(0, peak):
                return 0
            share = share_of(share, at, peak)
        else:
            start, end = region[axis]
            if not start < at < end:
                return 0
            share = share_of(share, at - start, peak - start) if at < peak else share_of(share, end - at, end - peak)
        if share == 0:
            return 0
    return share


def tuple_head(data, at, coordinates, shared):
    """Returns the size of a tuple's bytes, its bits, how much of it holds, and the place behind its header."""
    size, index = data.unsigned(at, 2), data.unsigned(at + 2, 2)
    start, axes = at + 2, len(coordinates)
    at += 4
    row = lambda place: [4 * data.signed(place + 2 * it, 2) for it in range(axes)]
    if index & 0x8000:
        peaks, at = row(at), at + 2 * axes
    elif index & 0xFFF < len(shared):
        peaks = shared[index & 0xFFF]
    else:
        raise Broken(start)
    region = None
    if index & 0x4000:
        region, at = list(zip(row(at), row(at + 2 * axes))), at + 4 * axes
    return size, index, on_tuple(coordinates, peaks, region), at


def tuples(data, at, base, points, lists, coordinates, shared):
    """Yields of each tuple that holds how much of it does, the numbers of its points, None for all, and its lists of
    deltas, so many for each point. Counts stand at a place, and the offset to the deltas is counted from the base."""
    count, offset = data.unsigned(at, 2), data.unsigned(at + 2, 2)
    place = base + offset
    if place > data.end:
        raise Broken(at + 2)
    common = []
    if count & 0x8000:
        common, place = point_numbers(data, place, points)
    at += 4
    for _ in range(count & 0xFFF):
        size, index, share, at = tuple_head(data, at, coordinates, shared)
        if share:
            numbers, here = point_numbers(data, place, points) if index & 0x2000 else (common, place)
            found = []
            for _ in range(lists):
                one, here = deltas(data, here, points if numbers is None else len(numbers))
                found.append(one)
            yield share, numbers, found
        place += size
