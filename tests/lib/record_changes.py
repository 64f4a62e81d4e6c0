"""Changes of a record's steps (run_record.py). None may be answered as the record has it.

Each function changes one thing at a place that it draws. It answers None where the record has no
place at which the change can be seen. So a request is left out, or moved, only where its worker
never sent it again: else the replay takes it from the repeat, and rightly so.
"""

import collections
import random

from wire import packed, unpacked

TEXTS = ("stdout", "stderr", "header")
# No request of a run has this number.
UNUSED = 2**40


def message_of(step):
    return unpacked(bytes.fromhex(step.line.removeprefix("in ")))


def with_message(step, message):
    """The step with another message, whose answer has its number."""
    verdict = step.wanted[0].split(" ", 2)[2]
    return step._replace(line="in " + packed(message).hex(), wanted=[f"answer {message['seq_number']} {verdict}"])


def places(steps, kind, fits=lambda step: True):
    return [place for place, step in enumerate(steps) if step.kind == kind and step.wanted and fits(step)]


def taken(steps, kind="update"):
    """The places of requests of open commands."""
    return places(steps, kind, lambda step: step.wanted[0].endswith(" nil"))


def said_once(steps, kind="update"):
    """The places of those that never came again."""
    lines = collections.Counter(step.line for step in steps)
    return [place for place in taken(steps, kind) if lines[steps[place].line] == 1]


def texts_of(step):
    return [item for item in message_of(step)["args"] if item[0] in TEXTS and item[1].strip("\n")]


def lines_of(step):
    return [(output, line) for output, text in texts_of(step) for line in text.removesuffix("\n").split("\n")]


def with_texts(steps, found):
    return [place for place in found if texts_of(steps[place])]


def without(steps, found):
    if not found:
        return None
    place = random.choice(found)
    return steps[:place] + steps[place + 1 :]


def replaced(steps, found, change):
    """The steps with a change of the one at a place that is drawn."""
    if not found:
        return None
    place = random.choice(found)
    steps[place] = change(steps[place])
    return steps


def with_item(step, change):
    """A request one of whose texts is changed."""
    message = message_of(step)
    item = random.choice([item for item in message["args"] if item[0] in TEXTS and item[1].strip("\n")])
    change(item)
    return with_message(step, message)


def results(steps):
    """How each command ended."""
    return {step.line.split()[1]: step.wanted[0].split()[3] for step in steps if step.kind == "log"}


def request_left_out(steps):
    return without(steps, with_texts(steps, said_once(steps)))


def end_left_out(steps):
    return without(steps, said_once(steps, "complete"))


def requests_exchanged(steps):
    once = set(with_texts(steps, said_once(steps)))
    found = []
    for place in sorted(once):
        if place + 1 not in once or message_of(steps[place])["command_id"] != message_of(steps[place + 1])["command_id"]:
            continue
        one, other = lines_of(steps[place]), lines_of(steps[place + 1])
        found += [place] if one + other != other + one else []
    if not found:
        return None
    place = random.choice(found)
    return [*steps[:place], steps[place + 1], steps[place], *steps[place + 2 :]]


def byte_of_a_text_changed(steps):
    def change(item):
        at = random.choice([at for at, letter in enumerate(item[1]) if letter != "\n"])
        item[1] = item[1][:at] + ("y" if item[1][at] == "x" else "x") + item[1][at + 1 :]

    return replaced(steps, with_texts(steps, taken(steps)), lambda step: with_item(step, change))


def output_changed(steps):
    def change(item):
        item[0] = "stderr" if item[0] == "stdout" else "stdout"

    return replaced(steps, with_texts(steps, taken(steps)), lambda step: with_item(step, change))


def exit_code_changed(steps):
    def change(step):
        message = message_of(step)
        message["args"] = [["rc", 1] if item[0] == "rc" else item for item in message["args"]]
        return with_message(step, message)

    def fits(step):
        message = message_of(step)
        return ["rc", 0] in message["args"] and ends[message["command_id"]] == "SUCCESS"

    ends = results(steps)
    return replaced(steps, places(steps, "update", fits), change)


def command_changed(steps):
    def change(step):
        message = message_of(step)
        message["command_id"] = str(int(message["command_id"]) + random.choice([1, 1000]))
        return with_message(step, message)

    return replaced(steps, with_texts(steps, said_once(steps)), change)


def number_was_had(steps):
    """A request with the number of one before it counts as a repeat of that."""
    once, found, before = set(with_texts(steps, said_once(steps))), [], None
    for place, step in enumerate(steps):
        if place in once and before is not None:
            found.append((place, before))
        if step.kind == "down":
            before = None
        elif step.kind in ("update", "complete") and step.wanted[0].endswith(" nil"):
            before = message_of(step)["seq_number"]
    if not found:
        return None
    place, number = random.choice(found)
    steps[place] = with_message(steps[place], {**message_of(steps[place]), "seq_number": number})
    return steps


def repeat_made_fresh(steps):
    def fits(step):
        return message_of(step)["op"] == "update" and texts_of(step)

    return replaced(steps, places(steps, "repeat", fits), lambda step: with_message(step, {**message_of(step), "seq_number": UNUSED}))


def start_left_out(steps):
    return without(steps, places(steps, "go"))


def stop_left_out(steps):
    ends = results(steps)
    return without(steps, places(steps, "stop", lambda step: ends[step.line.split()[1]] == "CANCELLED"))


def stop_before_its_start(steps):
    found = places(steps, "stop")
    if not found:
        return None
    place = random.choice(found)
    number = steps[place].line.split()[1]
    start = next(at for at, step in enumerate(steps) if step.kind == "go" and step.wanted and step.wanted[0].split()[2] == number)
    return [*steps[:start], steps[place], *steps[start:place], *steps[place + 1 :]]


def number_of_an_order_changed(steps):
    def change(step):
        word, number, command = step.wanted[0].split()
        return step._replace(wanted=[f"{word} {int(number) + 1} {command}"])

    return replaced(steps, places(steps, random.choice(["go", "go", "stop"])), change)


def cut_left_out(steps):
    # A giving up may follow without a cut as well.
    return without(steps, [place for place in places(steps, "cut") if steps[place + 1].kind == "up"])


def connection_left_out(steps):
    return without(steps, [place for place in places(steps, "up") if steps[place + 1].kind != "log"])


def giving_up_left_out(steps):
    # An order before it and one behind it: else no number shows it.
    kinds = [step.kind for step in steps]
    return without(steps, [place for place in places(steps, "down") if "go" in kinds[:place] and "go" in kinds[place:]])


def answer_changed(steps):
    found = places(steps, "update") + places(steps, "complete") + places(steps, "repeat")
    return replaced(steps, found, lambda step: step._replace(wanted=[step.wanted[0].rsplit(" ", 1)[0] + " exception bad arguments"]))


def line_of_a_log_left_out(steps):
    def change(step):
        at = random.randrange(1, len(step.wanted))
        head = step.wanted[0].split()
        head[2] = str(len(step.wanted) - 2)
        return step._replace(wanted=[" ".join(head), *step.wanted[1:at], *step.wanted[at + 1 :]])

    kind = random.choice(["log", "look"])
    return replaced(steps, places(steps, kind, lambda step: len(step.wanted) > 1), change)


def result_changed(steps):
    def change(step):
        words = step.wanted[0].split()
        words[3] = random.choice([word for word in ("SUCCESS", "FAILURE", "CANCELLED", "RETRY", "EXCEPTION", "open") if word != words[3]])
        return step._replace(wanted=[" ".join(words), *step.wanted[1:]])

    return replaced(steps, places(steps, "log"), change)


CHANGES = [request_left_out, end_left_out, requests_exchanged, byte_of_a_text_changed, output_changed, exit_code_changed]
CHANGES += [command_changed, number_was_had, repeat_made_fresh, start_left_out, stop_left_out, stop_before_its_start]
CHANGES += [number_of_an_order_changed, cut_left_out, connection_left_out, giving_up_left_out, answer_changed]
CHANGES += [line_of_a_log_left_out, result_changed]
