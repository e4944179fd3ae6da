"""What two files of a database are, by the rules of docs/FORMAT.md: written apart from the program that it judges."""

MAGIC = b"QL lldb database"
LOG_MAGIC = b"QL lldb log fmt"
LONGEST = 2**60 + 16


class Fault(Exception):
    """A log is faulty at a place."""

    def __init__(self, at):
        super().__init__(at)
        self.at = at


class Fields:
    """The fields of a log, one behind the other."""

    def __init__(self, log, at):
        self.log, self.at = log, at

    def take(self, count, keeps=lambda value: True):
        """The next bytes, where they are there and keep a rule."""
        field = self.log[self.at : self.at + count]
        if len(field) < count or not keeps(field):
            raise Fault(self.at)
        self.at += count
        return field

    def number(self, count, keeps):
        return int.from_bytes(self.take(count, lambda field: keeps(int.from_bytes(field, "big"))), "big")


def read_batch(size, log):
    """The pieces of an open log, and the new length."""
    fields = Fields(log, 16)
    count = fields.number(8, lambda n: True)
    pieces, last = [], 0
    while len(pieces) < count:
        reach = max(size, last)
        place = fields.number(8, lambda p: 16 <= p and last <= p <= reach)
        length = fields.number(4, lambda n: 1 <= n <= 65536 and place + n <= LONGEST)
        pieces.append((place, fields.take(length)))
        last = place + length
    reach = max(size, last)
    new = fields.number(8, lambda n: 16 <= n and last <= n <= reach)
    if fields.at < len(log):
        raise Fault(fields.at)
    return pieces, new


def is_closed(log):
    return len(log) < 32 or (log.startswith(LOG_MAGIC) and log[15] != 1)


def judge(front, size, log):
    """What the program of crates/test_wal shows of a data file with these first bytes and this size, beside a log."""
    if size == 0:
        return "new\n"
    if front[:16] != MAGIC and size <= 16 and len(log) >= 16 and log.startswith(LOG_MAGIC) and is_closed(log):
        return "new\n"
    if front[:16] != MAGIC or size > LONGEST:
        return "no database\n"
    if is_closed(log):
        return "closed\n"
    if not log.startswith(LOG_MAGIC):
        return "bad log 0\n"
    try:
        pieces, new = read_batch(size, log)
    except Fault as fault:
        return f"bad log {fault.at}\n"
    lines = [f"{place} {len(piece)} {checksum(piece)}\n" for place, piece in pieces]
    return f"open {len(pieces)} {new}\n" + "".join(lines)


def checksum(piece):
    """The 64-bit FNV-1a hash of bytes."""
    value = 0xCBF29CE484222325
    for byte in piece:
        value = (value ^ byte) * 0x100000001B3 % 2**64
    return value
