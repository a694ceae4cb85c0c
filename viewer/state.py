"""A state from its words (docs/formats.md, "The state's words"), and a state in words. Only fields in use are read, so two states are equal exactly if what is
read of them is. A mark is shown by its row's id."""
from dataclasses import dataclass

from viewer.lists import Fault

LIVES = ["active", "tearing down", "retired"]
STATES = ["new", "active", "retired"]
CLASSES = ["Leaf", "RendezvousOnly", "Never"]
TAGS = ["vacant", "Reserved", "TransferReserved", "occupied"]
ROWS = ["", "reservation", "claim", "parcel", "plan"]
HEADER, HEAD, ENTRY, SLOT, OBJECT, PAIR, ROW, BLOCK = 16, 16, 5, 6, 8, 2, 390, 6
PAGE, MOST_PAGES, MOST_TABLES = 64, 262_144, 16
PLAN_OWNER = MOST_TABLES * MOST_PAGES + 1  # with the place of a plan's row, the owner word of a frame that it holds


@dataclass
class Handle:
    object: int
    rights: int
    flags: int


@dataclass
class Slot:
    tag: str
    generation: int
    row: int = None  # the id of the row that has marked it
    handle: Handle = None


@dataclass
class Page:
    frame: int  # None: detached
    high: int
    busy: int = None
    slots: list = None


@dataclass
class Table:
    limit: int
    mask: int
    life: str
    cursor: int  # None: not tearing down
    epoch: int
    free_count: int
    pages: list
    free: list
    empty: list
    detached: list

    def value(self, slot, generation):
        """The handle value that names a slot at a generation."""
        return 0x48 << 56 | (generation << 24 | slot + 1) ^ self.mask


@dataclass
class Plan:
    count: int
    epoch: int  # this and the next two: the kept snapshot
    free_slots: int
    pages: list
    frames: list


@dataclass
class Row:
    id: int
    what: str
    table: int  # None: a parcel
    entries: list  # reservation: slots; claim: (operation, slot, handle, rights that the receiver gets); parcel: handles; plan: none
    plan: Plan = None


@dataclass
class State:
    next: int
    capacity: int
    frames: int
    free_frames: list
    tables: list
    objects: list
    rows: list


def read(words):
    """The state that well-formed words stand for."""
    try:
        return Reader(words).state()
    except IndexError:
        raise Fault("the state's words cannot be read: a number names no place")


class Reader:
    def __init__(self, words):
        self.w = words
        version, self.t, self.f, self.o, self.r, self.next, self.used, self.free_frames, self.p = words[:9]
        if version != 1:
            raise Fault(f"the state's words are of version {version}, not 1")
        groups = sum(-(-self.f // size) for size in (16, 256, 4096))
        self.heads = HEADER
        self.entries = self.heads + HEAD * self.t
        self.owners = self.entries + ENTRY * self.p
        self.slots = self.owners + self.f + groups
        self.objects = self.slots + PAGE * SLOT * self.f
        self.index = self.objects + OBJECT * self.o
        self.rows = self.index + PAIR * self.r

    def at(self, place, count):
        return self.w[place : place + count]

    def state(self):
        free = [n for n in range(self.f) if self.w[self.owners + n] == 0]
        if len(free) != self.free_frames:
            raise Fault("the state's words contradict each other: the count of free frames")
        return State(
            self.next,
            self.r,
            self.f,
            free,
            [self.table(n) for n in range(self.t)],
            [self.at(at, OBJECT) for at in range(self.objects, self.index, OBJECT)],
            [self.row(self.w[self.index + PAIR * rank]) for rank in range(self.used)],
        )

    def table(self, number):
        limit, mask, life, cursor, epoch, size, free, free_count, empty, detached, first = self.at(self.heads + HEAD * number, 11)
        entry = lambda page: self.entries + ENTRY * (first + page)
        slot = lambda n: self.slots + SLOT * (PAGE * (self.w[entry(n // PAGE)] - 1) + n % PAGE)
        pages = [self.page(n, *self.at(entry(n), 3)) for n in range(size)]
        order = self.order(free, lambda n: slot(n) + 2, PAGE * size)
        if len(order) != free_count:
            raise Fault(f"the state's words contradict each other: the count of free slots of table {number}")
        by_entry = lambda n: entry(n) + 3
        return Table(
            limit, mask, LIVES[life], cursor if life == 1 else None, epoch, free_count, pages, order, self.order(empty, by_entry, size), self.order(detached, by_entry, size)
        )

    def order(self, link, next_of, most):
        """The numbers of an order, from its first link; a link is a number plus 1."""
        out = []
        while link != 0:
            if len(out) == most:
                raise Fault("the state's words contradict each other: an order has no end")
            out.append(link - 1)
            link = self.w[next_of(link - 1)]
        return out

    def page(self, number, frame, high, busy):
        if frame == 0:
            return Page(None, high)
        count = PAGE - 1 if number == MOST_PAGES - 1 else PAGE
        at = self.slots + PAGE * SLOT * (frame - 1)
        return Page(frame - 1, high, busy, [self.slot(*self.at(at + SLOT * n, 5)) for n in range(count)])

    def slot(self, tag, generation, first, second, third):
        if tag == 3:
            return Slot(TAGS[tag], generation, handle=Handle(first, second, third))
        return Slot(TAGS[tag], generation, row=self.w[self.rows + ROW * first] if tag else None)

    def row(self, place):
        at = self.rows + ROW * place
        id, what, table, length, count, epoch = self.at(at, BLOCK)
        blocks = range(at + BLOCK, at + BLOCK * (length + 1), BLOCK)
        if ROWS[what] == "plan":
            frames = [self.w[block + 1] for block in blocks]
            if any(self.w[self.owners + frame] != PLAN_OWNER + place for frame in frames):
                raise Fault(f"the state's words contradict each other: the frames that plan {id} holds")
            return Row(id, ROWS[what], table, [], Plan(count, epoch, self.w[at + BLOCK + 2], [self.w[block] for block in blocks], frames))
        entries = []
        for block in blocks:
            first, slot, *handle, gets = self.at(block, BLOCK)
            if ROWS[what] == "reservation":
                entries.append(first)
            elif ROWS[what] == "parcel":
                entries.append(Handle(*handle))
            else:
                entries.append(("move", slot, Handle(*handle), gets) if first == 0 else ("copy", None, Handle(*handle), None))
        return Row(id, ROWS[what], None if ROWS[what] == "parcel" else table, entries)


def runs(numbers):
    """Numbers in their order, neighbours as `first to last`."""
    return ", ".join(f"{run[0]} {'to' if run[-1] > run[0] else 'down to'} {run[-1]}" if len(run) > 2 else ", ".join(map(str, run)) for run in grouped(numbers)) or "none"


def grouped(numbers):
    """Numbers in runs that rise or fall by 1."""
    out = []
    for n in numbers:
        if out and n - out[-1][-1] in (1, -1) and (len(out[-1]) == 1 or n - out[-1][-1] == out[-1][-1] - out[-1][-2]):
            out[-1].append(n)
        else:
            out.append([n])
    return out


def tables_told(state, names):
    """Each table's lines."""
    return [table_told(n, table, names) for n, table in enumerate(state.tables)]


def table_told(number, table, names):
    life = table.life + (f" at slot {table.cursor}" if table.cursor is not None else "")
    lines = [f"{names.named('table', number)}: {life}, epoch {table.epoch}, mask {table.mask:x}, {len(table.pages)} of {table.limit} pages, {table.free_count} free slots"]
    if table.pages:
        lines.append(f"  free order: {runs(table.free)}")
        lines.append(f"  empty pages: {runs(table.empty)}; detached pages: {runs(table.detached)}")
    for n, page in enumerate(table.pages):
        if page.frame is None:
            lines.append(f"  page {n}: detached, high mark {page.high}")
            continue
        lines.append(f"  page {n}: frame {page.frame}, high mark {page.high}, {page.busy} busy")
        alike = []
        for place, slot in enumerate(page.slots + [None]):
            if alike and slot == page.slots[alike[-1] % PAGE] and slot.tag == "vacant":
                alike.append(n * PAGE + place)
                continue
            if alike:
                lines.append(f"    slot{'s' if len(alike) > 1 else ''} {runs(alike)}: {slot_told(table, alike[0], page.slots[alike[0] % PAGE], names)}")
            alike = [n * PAGE + place]
    return lines


def slot_told(table, number, slot, names):
    if slot.tag == "vacant":
        return f"vacant, generation {slot.generation}"
    value = f"generation {slot.generation}, value {table.value(number, slot.generation):016x}"
    if slot.tag == "occupied":
        return f"{handle_told(slot.handle, names)}, {value}"
    return f"{slot.tag} by {slot.row}, {value}"


def handle_told(handle, names):
    return f"{names.named('object', handle.object)} with rights {handle.rights}, flags {handle.flags}"


def objects_told(state, names):
    return [
        f"{names.named('object', n)}: koid {koid}, kind {kind}, {CLASSES[kin]}, rights {rights}, {'exportable' if exportable else 'not exportable'}, {STATES[now]}, {count} of {limit} handles"
        for n, (koid, kind, kin, rights, exportable, now, count, limit) in enumerate(state.objects)
    ]


def rows_told(state, names):
    return [f"row {row.id}: {row_told(row, names)}" for row in state.rows]


def row_told(row, names):
    if row.what == "parcel":
        return "parcel: " + "; ".join(handle_told(handle, names) for handle in row.entries)
    head = f"{row.what} in {names.named('table', row.table)}: "
    if row.what == "plan":
        plan = row.plan
        return head + f"count {plan.count}; frames held: {runs(plan.frames)}; kept: epoch {plan.epoch}, {plan.free_slots} free slots, pages {runs(plan.pages)}"
    if row.what == "reservation":
        return head + f"slot{'s' if len(row.entries) > 1 else ''} {runs(row.entries)}"
    return head + "; ".join(
        (f"moves slot {slot}, " if operation == "move" else "copies ") + handle_told(handle, names) + (f", to be received with rights {gets}" if operation == "move" else "")
        for operation, slot, handle, gets in row.entries
    )


def book_told(state):
    return [f"next id {state.next}", f"{len(state.rows)} of {state.capacity} rows in use", f"free frames: {runs(state.free_frames)} (of {state.frames})"]


def state_told(state, names):
    """Every line, each with the part of the state that it belongs to."""
    parts = tables_told(state, names) + [[line] for line in rows_told(state, names) + objects_told(state, names)] + [["book: " + "; ".join(book_told(state))]]
    return [(part[0].split(":")[0], line) for part in parts for line in part]
