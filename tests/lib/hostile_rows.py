"""Messages of which one byte is changed: which message, the byte's place and its new value, what comes
of it, and the log behind it. It is `bad`, `noted`, or the number that is answered and the exception
(None for nil)."""

NO_OPERATION, BAD_ARGUMENTS, NO_COMMAND = "no such operation", "bad arguments", "no such command"

ROWS = [
    # Four pairs, as they are.
    ("update", 0, 0x84, (0, None), "oa\n"),
    # Three pairs and more bytes, five pairs, an array, nil, and the byte that no value has.
    ("update", 0, 0x83, "bad"),
    ("update", 0, 0x85, "bad"),
    ("update", 0, 0x94, "bad"),
    ("update", 0, 0xc0, "bad"),
    ("update", 0, 0xc1, "bad"),
    # The first key is a byte longer, is another one, and has a byte that no text has.
    ("update", 1, 0xab, "bad"),
    ("update", 2, ord("t"), "bad"),
    ("update", 2, 0xff, "bad"),
    # `seq_number` is 1, -1, nil, a bool, a text and a map.
    ("update", 12, 0x01, (1, None), "oa\n"),
    ("update", 12, 0xff, "bad"),
    ("update", 12, 0xc0, "bad"),
    ("update", 12, 0xc3, "bad"),
    ("update", 12, 0xa0, "bad"),
    ("update", 12, 0x80, "bad"),
    # There is no `op`, it is a letter shorter, a letter off, another word and no UTF-8.
    ("update", 14, ord("p"), "bad"),
    ("update", 16, 0xa5, "bad"),
    ("update", 17, ord("v"), (0, NO_OPERATION)),
    ("update", 17, ord("U"), (0, NO_OPERATION)),
    ("update", 22, ord(" "), (0, NO_OPERATION)),
    ("update", 17, 0xff, "bad"),
    # There is no `command_id`; it is empty and a byte is left over, a number, and a longer text.
    ("update", 24, ord("C"), (0, BAD_ARGUMENTS)),
    ("update", 34, 0xa0, "bad"),
    ("update", 34, 0xcc, (0, BAD_ARGUMENTS)),
    ("update", 34, 0xd0, (0, BAD_ARGUMENTS)),
    ("update", 34, 0xd9, "bad"),
    ("update", 34, 0xc4, "bad"),
    # It is that of another command, no digit, and no UTF-8.
    ("update", 35, ord("1"), (0, NO_COMMAND)),
    ("update", 35, ord("9"), (0, NO_COMMAND)),
    ("update", 35, ord("a"), (0, BAD_ARGUMENTS)),
    ("update", 35, ord("-"), (0, BAD_ARGUMENTS)),
    ("update", 35, ord(" "), (0, BAD_ARGUMENTS)),
    ("update", 35, 0x80, "bad"),
    # There are no `args`. They are an array that is too long or too short, and a map.
    ("update", 37, ord("b"), (0, BAD_ARGUMENTS)),
    ("update", 41, 0x92, "bad"),
    ("update", 41, 0x90, "bad"),
    ("update", 41, 0x81, "bad"),
    # The item has one element, three, and two pairs.
    ("update", 42, 0x91, "bad"),
    ("update", 42, 0x93, "bad"),
    ("update", 42, 0x82, "bad"),
    # Its name is a letter shorter, another one, and no UTF-8.
    ("update", 43, 0xa5, "bad"),
    ("update", 44, ord("S"), (0, None)),
    ("update", 49, ord(" "), (0, None)),
    ("update", 44, 0xff, "bad"),
    # Its value is a letter shorter, a letter longer, a number, and an array without a text.
    ("update", 50, 0xa1, "bad"),
    ("update", 50, 0xa3, "bad"),
    ("update", 50, 0xd1, (0, BAD_ARGUMENTS)),
    ("update", 50, 0xcd, (0, BAD_ARGUMENTS)),
    ("update", 50, 0x92, (0, BAD_ARGUMENTS)),
    # Its text is another one, two lines, one without an end, and no UTF-8.
    ("update", 51, ord("b"), (0, None), "ob\n"),
    ("update", 51, ord("\n"), (0, None), "o\no\n"),
    ("update", 52, ord("b"), (0, None), "oab\n"),
    ("update", 51, 0xff, "bad"),
    ("update", 51, 0xc3, "bad"),
    ("complete", 43, 0xc0, (3, None)),
    # `args` is an empty text, a bool, a number, an empty array and an empty map.
    ("complete", 43, 0xa0, (3, None)),
    ("complete", 43, 0xc2, (3, BAD_ARGUMENTS)),
    ("complete", 43, 0x00, (3, BAD_ARGUMENTS)),
    ("complete", 43, 0x90, (3, BAD_ARGUMENTS)),
    ("complete", 43, 0x80, (3, BAD_ARGUMENTS)),
    # It is the byte that no value has, and a text that isn't there.
    ("complete", 43, 0xc1, "bad"),
    ("complete", 43, 0xa1, "bad"),
    # There are no `args`. `command_id` is that of another command, and no digit.
    ("complete", 39, ord("A"), (3, BAD_ARGUMENTS)),
    ("complete", 37, ord("1"), (3, NO_COMMAND)),
    ("complete", 37, ord("x"), (3, BAD_ARGUMENTS)),
    # `op` is a letter off, and `seq_number` is below 0.
    ("complete", 17, ord("C"), (3, NO_OPERATION)),
    ("complete", 12, 0xe0, "bad"),
    ("login", 43, ord("p"), (0, "already authenticated")),
    ("login", 43, ord("q"), (0, "already authenticated")),
    ("login", 30, 0xd1, (0, BAD_ARGUMENTS)),
    ("login", 22, ord("U"), (0, BAD_ARGUMENTS)),
    ("login", 42, 0xcc, (0, BAD_ARGUMENTS)),
    ("login", 17, ord("A"), (0, NO_OPERATION)),
    ("response", 32, 0xc0, "noted"),
    # The result is a bool, or isn't there. The response is to an order that was not given.
    ("response", 32, 0xc3, "noted"),
    ("response", 26, ord("R"), "noted"),
    ("response", 12, 0x01, "noted"),
    # `op` is a letter off, or a letter shorter. There are two pairs and more bytes, and a number
    # below 0.
    ("response", 17, ord("R"), (0, NO_OPERATION)),
    ("response", 16, 0xa7, "bad"),
    ("response", 0, 0x82, "bad"),
    ("response", 12, 0xff, "bad"),
]
