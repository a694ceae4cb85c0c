"""The held and the plain run (document 00, demand 3; document 01, "Runs H and P"; document 02, 2 and 4) of a list, side by side. Run H prepares the transfer after `hold`, runs the
list and ends the transfer; run P runs the same list without it, with ids above the transfer's one lower, and where H commits closes the moved values. The list may look at
the moved values with get_info, and names them in no other request; it may judge transfers where the held run has a free row and an id left."""
import textwrap

from viewer import state as states
from viewer.answers import NUMBERS, told
from viewer.lists import ID_AT, IDS, Fault, Request

WIDTH = 58
LOOK = "get_info"  # the request that may name a moved value
JUDGE = "judge_transfer"  # the request that may stand only where H has a free row and an id left
LAST_ID = 2**64 - 1
WALKS = {"scan_handles": "scans", "teardown_start": "starts tearing down", "remove_stopping_owner": "removes for a stopping owner in"}


class Held:
    def __init__(self, this, engine):
        self.list, self.engine = this, engine
        self.answers, self.broken, self.differ = [], [], []

    def lowered(self, id):
        return id - 1 if id > self.t else id

    def lower_state(self, state):
        state.next = self.lowered(state.next)
        for row in state.rows:
            row.id = self.lowered(row.id)
        for slot in (slot for table in state.tables for page in table.pages for slot in page.slots or []):
            slot.row = None if slot.row is None else self.lowered(slot.row)
        return state

    def run(self, engine, line, words):
        result, answer = engine.run(words)
        if result != 0:
            raise Fault(f"{self.list.name}, line {line}: the call gives {result} {NUMBERS[result]}; the two runs are runs of well-formed requests")
        return answer

    def all(self):
        """Prints everything; whether the runs agree, or a condition is broken."""
        before, transfer, requests = self.list.requests[: self.list.hold], self.list.requests[self.list.hold], self.list.requests[self.list.hold + 1 :]
        if before:
            print("before the two runs")
        for request in before:
            answer = self.run(self.engine, request.line, self.list.records(request, self.answers))
            for line in self.wrapped(request.told(), f"{len(self.answers) + 1:3} ") + self.wrapped([told(request.op, answer)], "      "):
                print(line)
            self.answers.append((request.op, answer))
        plain = self.engine.fork()
        if not self.hold(transfer):
            return self.verdict()
        for request in requests:
            self.one(request, plain)
        self.end(plain)
        return self.verdict()

    def hold(self, transfer):
        """Run H prepares the transfer. Whether it is accepted."""
        if any(kind != "move" for kind, _, _ in transfer.items):
            self.broken.append((transfer.line, 'the transfer is not "of moves only"'))
        answer = self.run(self.engine, transfer.line, self.list.records(transfer, self.answers))
        self.b = self.list.number("table", transfer.fields["table"], self.answers)
        self.values = [self.list.number("value", item["value"], self.answers) for _, _, item in transfer.items]
        self.t = answer[1]
        print("\n    " + f"run H: {self.list.named('table', self.b)} holds what it moves".ljust(WIDTH) + "    run P: nothing is held")
        self.show(transfer, answer, len(self.answers) + 1)
        self.answers.append((transfer.op, answer))
        if answer[0] != 0:
            self.broken.append((transfer.line, f'the transfer is not "accepted": it gives {answer[0]} {NUMBERS[answer[0]]}'))
            return False
        print(f"    {'':{WIDTH}}    ids above {self.t} are one lower in P")
        return True

    def one(self, request, plain):
        """One request of the list, in both runs."""
        before = states.read(self.engine.state())
        h = self.run(self.engine, request.line, self.list.records(request, self.answers))
        lower = lambda name, number: self.lowered(number) if name in IDS else number
        p = self.run(plain, request.line, self.list.records(request, self.answers, lower))
        expected = list(h)
        if h[0] == 0 and request.op in ID_AT:
            expected[1] = self.lowered(expected[1])
        self.broken += [(request.line, why) for why in self.conditions(request, before, h)]
        if expected != p:
            self.differ.append(f"the answer to {len(self.answers) + 1}")
        self.show(request, h, len(self.answers) + 1, lower, p, "==" if expected == p else "!=")
        self.answers.append((request.op, h))

    def conditions(self, request, before, answer):
        """The conditions of demand 3 that a request of the list breaks, in the state that it meets in H."""
        number = lambda fields, name: self.list.number(name, fields[name], self.answers) if name in fields else None
        records = [request.fields] + [item for _, _, item in request.items]
        there = number(request.fields, "table") == self.b
        if there and request.op != LOOK and any(number(fields, "value") in self.values for fields in records if "value" in fields):
            yield f"names a moved value in {self.list.named('table', self.b)}, which only {LOOK} may"
        if any(number(fields, name) == self.t for fields in records for name in IDS):
            yield f"names the transfer's id, {self.t}"
        if there and request.op in WALKS:
            yield f"{WALKS[request.op]} {self.list.named('table', self.b)}"
        if answer[0] == 1 and self.pages_needed(request, before, number) <= len(before.free_frames):
            yield 'H refuses it "for want of a row": it gives 1 with frames enough for the pages it needs'
        if request.op == JUDGE and len(before.rows) == before.capacity:
            yield "judges a transfer where H has no free row"
        if request.op == JUDGE and before.next == LAST_ID:
            yield "judges a transfer where H has no id left"
        if answer[0] == 12:
            yield 'H refuses it "for want of an id": it gives 12'

    def pages_needed(self, request, state, number):
        """How many pages a reservation must attach, or a plan holds frames for: detached ones first, then new ones. The last page that a table can have has a slot less."""
        if request.op not in ("reserve", "make_plan"):
            return 0
        table, pages = state.tables[number(request.fields, "table")], 0
        missing = number(request.fields, "count") - len(table.free)
        for page in table.detached + list(range(len(table.pages), table.limit)):
            if missing <= 0:
                break
            missing -= states.PAGE - (page == states.MOST_PAGES - 1)
            pages += 1
        return pages

    def end(self, plain):
        """H ends the transfer; where it commits, P closes the moved values. Then the end states."""
        ending = Request(self.list.ending_line, self.list.ending, {"id": str(self.t)})
        answer = self.run(self.engine, ending.line, self.list.records(ending, self.answers))
        self.show(ending, answer, "")
        if answer[0] != 0:
            self.differ.append(f"the {ending.op} is refused")
        if ending.op == "commit":
            for value in self.values:
                closing = Request(ending.line, "close", {"table": str(self.b), "value": str(value)})
                closed = self.run(plain, ending.line, self.list.records(closing, self.answers))
                self.beside([], [f"close table={self.b} value={value:016x}", "  " + told("close", closed)], "")
                if closed[0] != 0:
                    self.differ.append("P's closing is refused")
        h, p = self.lower_state(states.read(self.engine.state())), states.read(plain.state())
        print(f"\nthe states after H's {ending.op}" + (" and P's closings" if ending.op == "commit" else "") + f" (H's ids above {self.t} shown one lower)")
        for n, (left, right) in enumerate(zip(h.tables, p.tables)):
            self.part(self.list.named("table", n), left, right, states.table_told(n, left, self.list), states.table_told(n, right, self.list))
        if ending.op == "commit":
            print(f"  objects and rows: not compared; in H the handles live on in parcel {self.t}, in P they are closed")
            return
        self.part("objects", h.objects, p.objects, states.objects_told(h, self.list), states.objects_told(p, self.list))
        self.part("rows", h.rows, p.rows, states.rows_told(h, self.list), states.rows_told(p, self.list))
        rest = lambda state: (state.next, state.capacity, state.frames, state.free_frames)
        self.part("next id, free frames", rest(h), rest(p), states.book_told(h), states.book_told(p))

    def part(self, name, h, p, h_lines, p_lines):
        print(f"  {name}: {'equal' if h == p else 'DIFFERENT'}")
        if h != p:
            self.differ.append(name)
            for run, lines, others in (("H", h_lines, p_lines), ("P", p_lines, h_lines)):
                for line in lines:
                    if line not in others:
                        print(f"    {run}: {line.strip()}")

    def verdict(self):
        print()
        for line, why in self.broken:
            print(f"condition broken, line {line}: {why}")
        if self.differ:
            print("the runs differ: " + ", ".join(self.differ))
        if self.broken:
            if not self.differ and self.answers[self.list.hold][1][0] == 0:
                print("the runs agree all the same")
            print('So this is no pair of runs that demand 3 speaks of (document 01, "Runs H and P").')
            return True
        if self.differ:
            print("No condition is broken: this contradicts demand 3.")
            return False
        n, end = len(self.answers) - self.list.hold - 1, "the whole end state" if self.list.ending == "rollback" else "every table"
        print(f"No condition is broken, and the runs agree: the {n} answers, all 72 words of each, and {end}.")
        return True

    def show(self, request, h, number, lower=None, p=None, mark=""):
        """A request and its answers: in both runs, or in H alone."""
        say = lambda change: lambda name, text: str(change(name, self.list.number(name, text, self.answers))) if name in IDS else text
        self.beside(request.told(say(lambda name, id: id)), request.told(say(lower)) if p else [], "", number)
        self.beside(["  " + told(request.op, h)], ["  " + told(request.op, p)] if p else [], mark)

    def wrapped(self, lines, first, width=100):
        return [line for n, text in enumerate(lines) for line in textwrap.wrap(text, width, initial_indent=first if n == 0 else "      ", subsequent_indent="        ")]

    def beside(self, left, right, mark, number=""):
        wrap = lambda lines: [part for line in lines for part in textwrap.wrap(line, WIDTH, subsequent_indent="    ", initial_indent=line[: len(line) - len(line.lstrip())])]
        left, right = wrap(left), wrap(right)
        for n in range(max(len(left), len(right))):
            l, r = left[n] if n < len(left) else "", right[n] if n < len(right) else ""
            print(f"{number if n == 0 else '':>3} {l:{WIDTH}} {mark if n == 0 else '':2} {r}".rstrip())
