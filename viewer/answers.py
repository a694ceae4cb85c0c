"""Answers in words."""
NUMBERS = (
    "done Allocation InvalidHandle Busy WrongObjectType AccessDenied UnsupportedRights UnsupportedFlags UnsupportedTransfer ObjectRetired ObjectAlreadyActive ActiveHandleLimit "
    "ReservationIdExhausted ReservationTooLarge OutstandingReservation TableFull TableRetired EmptyReservation Misuse Malformed AnswerShort StalePlan"
).split()
INFO = ["koid", "kind", "rights", "flags"]
# the rules that a transfer is judged by, in their order, and the position where no item is at fault
PLACES = [
    "the table is not active", "no item", "more than 64 items", "no free row", "no id left", "a value listed twice", "lookup", "no TRANSFER", "a copy without DUPLICATE", "offered beyond the source's",
    "requested beyond the offered", "the forbidden kind", "the forbidden object", "the route bars the class", "another kind", "a copy of a retired object", "a copy at the limit",
]  # fmt: skip
NO_ITEM = 64


def judged(number, position, place):
    """What is said of a transfer that was judged; items are counted from 0."""
    if number == 0:
        return "would be accepted"
    where = ", no item at fault" if position == NO_ITEM else f" at item {position}"
    return f"refused: {number} {NUMBERS[number]}{where}, place {place}: {PLACES[place - 1]}"


def told(op, words):
    if words[0] != 0:
        return f"{words[0]} {NUMBERS[words[0]]}"
    info = lambda at: ", ".join(f"{n} {words[at + i]}" for i, n in enumerate(INFO))
    if op in ("new_object", "duplicate", "prepare_transfer", "prepare_consumption"):
        return f"done, id {words[1]}"
    if op == "make_plan":
        return f"done, id {words[1]}, count {words[2]}, frames held {words[3]}"
    if op in ("reserve", "use_plan"):
        return f"done, id {words[1]}, values " + " ".join(f"{v:016x}" for v in words[3 : 3 + words[2]])
    if op in ("get_info", "close"):
        return "done, " + info(1)
    if op == "resolve":
        return f"done, object {words[1]}, koid {words[2]}, rights {words[3]}"
    if op == "replace":
        return f"done, value {words[1]:016x}"
    if op == "scan_handles":
        entries = "; ".join(f"{words[5 + 5 * i]:016x}: {info(6 + 5 * i)}" for i in range(words[1]))
        return f"done, {words[1]} entries, " + (f"next {words[3]}" if words[2] else "no next") + f", examined {words[4]}" + (f": {entries}" if entries else "")
    if op == "remove_stopping_owner":
        return f"done, cursor {words[2]}, " + (f"{words[3]:016x}: {info(4)}" if words[1] else "none")
    if op == "teardown_step":
        return "done, " + (info(2) if words[1] else "none")
    if op == "judge_transfer":
        return judged(*words[1:4])
    if op == "take_empty_page":
        return "done, " + (f"page {words[2]}" if words[1] else "none")
    return "done"
