"""The recorded lists (docs/oracle.md): a reader of their form."""
import re

MASK = 2**64 - 1


def words(text):
    """The words of the recorded lists' short form."""
    out = []
    for token in re.findall(r"\([^)]*\)\*\d+|\S+", text):
        group = re.fullmatch(r"\(([^)]*)\)\*(\d+)", token)
        if group:
            parts = [p.split("+") for p in group.group(1).split()]
            for turn in range(int(group.group(2))):
                for p in parts:
                    step = int(p[1], 16) if len(p) > 1 else 0
                    out.append((int(p[0], 16) + turn * step) & MASK)
        else:
            word, _, times = token.partition("*")
            out += [int(word, 16)] * (int(times) if times else 1)
    return out


class Case:
    def __init__(self, name):
        self.name, self.start, self.calls, self.text = name, None, [], []


def cases(path):
    case, intext = None, False
    for line in path.read_text().split("\n"):
        if intext:
            case.text.append(line)
            intext = line != "end"
            continue
        kind, _, rest = line.partition(" ")
        if kind == "case":
            if case:
                yield case
            case = Case(rest)
        elif kind in ("create", "words"):
            case.start = (kind, words(rest))
        elif kind == "start":
            case.result = int(rest.split()[0])
        elif kind in ("=", "~"):
            ask, answer, _ = [x.strip() for x in rest.split(">")]
            case.calls.append(("=", words(ask), words(answer)))
        elif kind == "!":
            lent, result, ask = rest.split(" ", 2)
            case.calls.append(("!", int(lent), int(result), words(ask.split(">")[0])))
        elif kind == "text":
            intext = True
    if case:
        yield case
