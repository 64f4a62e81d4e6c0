"""Reads bytes of a worker as `buildmaster` has to: which value they are, and which event that is. It
is written from the MessagePack specification and docs/PROTOCOL.md, and shares nothing with the
product."""

import struct

DEPTH = 32
NUMBERS = 2**63
FORMS = {0xCA: "f", 0xCB: "d", 0xCC: "B", 0xCD: "H", 0xCE: "I", 0xCF: "Q", 0xD0: "b", 0xD1: "h", 0xD2: "i", 0xD3: "q"}
LENGTHS = {0xC4: "B", 0xC5: "H", 0xC6: "I", 0xC7: "B", 0xC8: "H", 0xC9: "I", 0xD9: "B", 0xDA: "H", 0xDB: "I", 0xDC: "H", 0xDD: "I", 0xDE: "H", 0xDF: "I"}
TEXTS = ("stdout", "stderr", "header")


class Bad(Exception):
    """The bytes are no message, for this reason."""


class BadArguments(Exception):
    """A key is missing, or of another kind."""


class Map(list):
    """The pairs of a map, in their order."""

    def get(self, key):
        """The value of the last pair with this text as its key."""
        found = [value for name, value in self if isinstance(name, str) and name == key]
        return found[-1] if found else None


class Reader:
    """Reads from the left, up to the first fault."""

    def __init__(self, data):
        self.data, self.at = data, 0

    def take(self, count):
        if self.at + count > len(self.data):
            raise Bad("truncated")
        self.at += count
        return self.data[self.at - count : self.at]

    def number(self, form):
        return struct.unpack(">" + form, self.take(struct.calcsize(form)))[0]

    def text(self, count):
        data = self.take(count)
        try:
            return data.decode()
        except UnicodeDecodeError:
            raise Bad("bad utf-8") from None

    def parts(self, first, short, room):
        """The head of a list or a map, whose count stands in its first byte or behind it."""
        if room == 0:
            raise Bad("too deep")
        return short if first < 0xA0 else self.number(LENGTHS[first])

    def list(self, first, room):
        return [self.value(room - 1) for _ in range(self.parts(first, first & 0x0F, room))]

    def map(self, first, room):
        count = self.parts(first, first & 0x0F, room)
        return Map((self.value(room - 1), self.value(room - 1)) for _ in range(count))

    def value(self, room=DEPTH):
        first = self.take(1)[0]
        if first < 0x80 or first >= 0xE0:
            return first if first < 0x80 else first - 0x100
        if first < 0x90 or first in (0xDE, 0xDF):
            return self.map(first, room)
        if first < 0xA0 or first in (0xDC, 0xDD):
            return self.list(first, room)
        if first < 0xC0:
            return self.text(first & 0x1F)
        if first in FORMS:
            return self.number(FORMS[first])
        return self.other(first)

    def other(self, first):
        if first == 0xC1:
            raise Bad("reserved byte")
        if first in (0xC0, 0xC2, 0xC3):
            return {0xC0: None, 0xC2: False, 0xC3: True}[first]
        if 0xD4 <= first <= 0xD8:
            return ("ext", self.take(1 + (1 << first - 0xD4)))
        count = self.number(LENGTHS[first])
        if first in (0xD9, 0xDA, 0xDB):
            return self.text(count)
        return ("ext", self.take(1 + count)) if first in (0xC7, 0xC8, 0xC9) else self.take(count)


def is_whole(value):
    return isinstance(value, int) and not isinstance(value, bool)


def text_of(value):
    """A text, which may stand first in a list."""
    if isinstance(value, list) and not isinstance(value, Map) and value:
        value = value[0]
    if not isinstance(value, str):
        raise BadArguments
    return value


def field(item):
    """What an item of an update says; None where it says nothing that is known."""
    if not isinstance(item, list) or isinstance(item, Map) or len(item) != 2 or not isinstance(item[0], str):
        raise BadArguments
    name, value = item
    if name in TEXTS:
        return [name, text_of(value)]
    if name == "rc":
        return [name, value] if is_whole(value) else None
    if name == "log":
        if not isinstance(value, list) or isinstance(value, Map) or len(value) < 2 or not isinstance(value[0], str) or not 1 <= len(value[0].encode()) <= 255:
            raise BadArguments
        return [name, [value[0], text_of(value[1])]]
    return None


def command_of(message):
    word = message.get("command_id")
    if not isinstance(word, str) or not word.isascii() or not word.isdigit() or str(int(word)) != word or int(word) >= NUMBERS:
        raise BadArguments
    return int(word)


def body(op, message):
    """What a request tells, without its number."""
    if op == "auth":
        if not isinstance(message.get("username"), str) or not isinstance(message.get("password"), str):
            raise BadArguments
        return ("auth",)
    if op == "update":
        command, items = command_of(message), message.get("args")
        if not isinstance(items, list) or isinstance(items, Map):
            raise BadArguments
        return ("update", command, [one for one in map(field, items) if one is not None])
    if op == "complete":
        command, fault = command_of(message), message.get("args")
        if fault is not None and not isinstance(fault, str) or not any(key == "args" for key, _ in message):
            raise BadArguments
        return ("complete", command, fault)
    return ("unknown",)


def event(data):
    """The number of a message, and what it says. Raises Bad where the bytes are no message."""
    reader = Reader(data)
    message = reader.value()
    if reader.at != len(data):
        raise Bad("trailing bytes")
    if not isinstance(message, Map):
        raise Bad("not a map")
    number, op = message.get("seq_number"), message.get("op")
    if not is_whole(number) or not 0 <= number < NUMBERS:
        raise Bad("no seq_number")
    if not isinstance(op, str):
        raise Bad("no op")
    if op == "response":
        return number, ("response", message.get("is_exception") is True)
    try:
        return number, body(op, message)
    except BadArguments:
        return number, ("bad arguments",)
