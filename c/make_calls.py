#!/usr/bin/env python3
"""Makes c/gurtxozal_calls.h from the tables of docs/formats.md: for each request a function that writes its record and one that reads its answer; functions for
the items and for creation's parameters.

  c/make_calls.py            writes c/gurtxozal_calls.h
  c/make_calls.py --print    prints it
"""
import re
import sys
from pathlib import Path

root = Path(__file__).resolve().parent.parent
doc = (root / "docs/formats.md").read_text()

# What the answers' table calls a word, and its name in C.
WORDS = {
    "the new parcel's id": "id",
    "the reservation's id": "id",
    "the claim's id": "id",
    "the plan's id": "id",
    "the count": "count",
    "koid": "koid",
    "kind": "kind",
    "rights": "rights",
    "flags": "flags",
    "the object's number": "object",
    "value": "value",
    "the new value": "value",
    "the length": "length",
    "whether there is a next cursor": "has_next",
    "the next cursor": "next",
    "examined": "examined",
    "whether a handle was removed": "removed",
    "the cursor as left": "cursor",
    "whether a page was taken": "taken",
    "its page number": "page",
    "how many frames it holds": "frames",
    "the number of its preparation": "judged",
    "the position of the item at fault": "position",
    "the place of the rule": "place",
}
VALUES = re.compile(r"^(\d+) to (\d+) the future values$")
ENTRIES = re.compile(r"^then from word (\d+) for each entry: value$")

HEAD = """\
/* Requests and answers of the till's handle tables, a function for each. Made by c/make_calls.py from the tables of docs/formats.md.
 *
 * gurtxozal_put_NAME writes a request's record into lent words and gives how many it has written; where `room` words are too few it writes none and gives 0.
 * Its fields stand in the order of the record's. Fields that a record may carry besides are lent in a struct whose `map` has the bits
 * (GURTXOZAL_BIT(GURTXOZAL_FIELD_..)) of those that are given; NULL gives none, and with any other bit nothing is written and the result is 0. The items of a publish or of a transfer are written behind it, as many as its `count` says.
 *
 * gurtxozal_read_NAME reads the answer to a request from its 72 words; `number` is GURTXOZAL_DONE or the refusal, and after a refusal the rest is 0. The `values` of a
 * reservation, and of a plan that is used, point into those words. */
#ifndef GURTXOZAL_CALLS_H
#define GURTXOZAL_CALLS_H

#include "gurtxozal.h"

#ifdef __cplusplus
extern "C" {
#endif

/* The answer to request n (from 0) of a list. */
static inline const uint64_t *gurtxozal_answer(const uint64_t *answers, size_t n) {
    return answers + n * GURTXOZAL_ANSWER_WORDS;
}
"""
TAIL = """
#ifdef __cplusplus
}
#endif
#endif
"""


def row_of(section, pattern):
    """The rows of the tables of a section."""
    text = re.search(r"^## %s\b.*?(?=^## |\Z)" % section, doc, flags=re.M | re.S).group(0)
    return re.findall(pattern, text, flags=re.M)


def c_name(name):
    return name.strip().replace(" ", "_")


BITS = {c_name(name.split(";")[0]): int(bit) for bit, name in row_of("Fields", r"^\| (\d+) \| ([^|]+?) \| [^|]+? \|[^|]*\|$")}


def fields_of(must):
    return [name for name, bit in sorted(BITS.items(), key=lambda pair: pair[1]) if must >> bit & 1]


def writer(name, about, must, may, first):
    """The function that writes a record: `first` is the word of bit 0, a constant or a parameter."""
    fields = [field for field in fields_of(must) if field != "op"]
    optional = fields_of(may)
    upper = name.upper()
    out = []
    if optional:
        out.append(f"/* What {about} may carry besides. */")
        out.append(f"struct gurtxozal_{name}_may {{")
        out += ["    uint64_t map;"] + [f"    uint64_t {field};" for field in optional] + ["};"]
    parameters = ["uint64_t *words", "size_t room"] + ([f"uint64_t {first}"] if not first[0].isupper() and first != "0" else []) + [f"uint64_t {field}" for field in fields]
    if optional:
        parameters.append(f"const struct gurtxozal_{name}_may *may")
    out.append(f"static inline size_t gurtxozal_put_{name}({', '.join(parameters)}) {{")
    needed = str(2 + len(fields))
    if optional:
        out.append("    const uint64_t map = may == NULL ? 0 : may->map;")
        out.append("    const size_t needed = " + " + ".join([needed] + [f"(size_t)(map >> GURTXOZAL_FIELD_{field.upper()} & 1)" for field in optional]) + ";")
        needed = "needed"
    out.append(f"    if (room < {needed}{f' || (map & ~GURTXOZAL_MAY_{upper}) != 0' if optional else ''}) {{")
    out += ["        return 0;", "    }"]
    out.append(f"    words[0] = GURTXOZAL_MUST_{upper}{' | map' if optional else ''};")
    out.append(f"    words[1] = {first};")
    out += [f"    words[{at}] = {field};" for at, field in enumerate(fields, 2)]
    if optional:
        out.append(f"    size_t at = {2 + len(fields)};")
        for field in optional:
            out += [f"    if (map >> GURTXOZAL_FIELD_{field.upper()} & 1) {{", f"        words[at++] = may->{field};", "    }"]
    out += [f"    return {needed};", "}"]
    return out


def reader(name, about, words):
    """The struct of an answer and the function that reads it."""
    members, entry = [("number", 0)], None
    parts = [re.sub(r" \(.*?\)", "", part).strip() for part in re.sub(r", in the order.*", "", words).split(", ")] if words != "none" else []
    for part in parts:
        values, entries, single = VALUES.match(part), ENTRIES.match(part), re.match(r"^(\d+) (.*)$", part)
        if entry is not None:
            entry[1].append(WORDS[part])
        elif values:
            members.append(("*values", int(values.group(1))))
        elif entries:
            entry = (int(entries.group(1)), ["value"])
        else:
            members.append((WORDS[single.group(2)], int(single.group(1))))
    type_of = lambda member: f"const uint64_t {member}" if member.startswith("*") else f"uint64_t {member}"
    out = [f"/* {about} */", f"struct gurtxozal_{name}_answer {{"] + [f"    {type_of(member)};" for member, _ in members] + ["};"]
    out.append(f"static inline struct gurtxozal_{name}_answer gurtxozal_read_{name}(const uint64_t *answer) {{")
    read = ", ".join(f"answer + {at}" if member.startswith("*") else f"answer[{at}]" for member, at in members)
    out += [f"    const struct gurtxozal_{name}_answer read = {{{read}}};", "    return read;", "}"]
    if entry is not None:
        first, names = entry
        out += [f"/* Entry n of the answer's `length`, from 0. */", f"struct gurtxozal_{name}_entry {{"] + [f"    uint64_t {member};" for member in names] + ["};"]
        out.append(f"static inline struct gurtxozal_{name}_entry gurtxozal_read_{name}_entry(const uint64_t *answer, size_t n) {{")
        out.append(f"    const uint64_t *entry = answer + {first} + {len(names)} * n;")
        out.append(f"    const struct gurtxozal_{name}_entry read = {{{', '.join(f'entry[{at}]' for at in range(len(names)))}}};")
        out += ["    return read;", "}"]
    return out


def choices(prefix, text):
    """The constants of a field with a few values, from a text such as `0 Move, 1 Copy`."""
    pairs = re.findall(r"(\d) ([A-Z]\w+)", text)
    lines = [f"    GURTXOZAL_{prefix}_{re.sub(r'(?<!^)(?=[A-Z])', '_', word).upper()} = {number}" for number, word in pairs]
    return ["enum {"] + [line + "," for line in lines[:-1]] + [lines[-1], "};"]


def constants():
    kinds = row_of("Creation's parameters", r"^\| class \| ([^|]+) \|")[0]
    return ["", "/* Classes of objects; gurtxozal.h has a transfer's routes and its items' operations. */"] + choices("CLASS", kinds)


def parameters():
    """The functions that write creation's parameters."""
    counts, table, item = row_of("Creation's parameters", r"^Words: ([^;]+); then for each table ([^;]+); then for each object ([^.]+)\.")[0]
    out = ["", "/* Creation's parameters: the counts, then each table, then each object. */"]
    for name, words in (("counts", counts), ("table", table), ("object", item)):
        names = ["class_" if word == "class" else c_name(word) for word in re.split(r", | and ", words)]
        out.append(f"static inline size_t gurtxozal_put_creation_{name}(uint64_t *words, size_t room, {', '.join(f'uint64_t {word}' for word in names)}) {{")
        out += [f"    if (room < {len(names)}) {{", "        return 0;", "    }"] + [f"    words[{at}] = {word};" for at, word in enumerate(names)] + [f"    return {len(names)};", "}"]
    return out


def header():
    answers = {}
    for ops, words in row_of("Answers", r"^\| (\d[^|]*) \| ([^|]+) \|$"):
        for op in re.findall(r"\d+", ops):
            answers[int(op)] = words
    out = constants() + parameters()
    for op, name, fields, must, _, may in row_of("Ops", r"^\| (\d+) \| ([^|]+) \| ([^|]+) \| (\d+) \|([^|]*)\| (\d+) \|$"):
        out += ["", f"/* {op}: {name}: {fields}. */"]
        out += writer(c_name(name), f"a {name}", int(must), int(may), f"GURTXOZAL_OP_{c_name(name).upper()}")
        out += reader(c_name(name), f"Its answer: {answers[int(op)]}.", answers[int(op)])
    for name, fields, must, _, may in row_of("Ops", r"^\| (transfer item|parcel item) \| ([^|]+) \| (\d+) \|([^|]*)\| (\d+) \|$"):
        out += ["", f"/* {name}: {fields}. */"]
        out += writer(c_name(name), f"a {name}", int(must), int(may), "0" if name == "parcel item" else "operation")
    return HEAD + "\n".join(out) + "\n" + TAIL


if __name__ == "__main__":
    if sys.argv[1:] == ["--print"]:
        sys.stdout.write(header())
    elif not sys.argv[1:]:
        (root / "c/gurtxozal_calls.h").write_text(header())
    else:
        sys.exit("usage: c/make_calls.py [--print]")
