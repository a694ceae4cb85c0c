#!/usr/bin/env python3
"""Holds docs/embedding.md to the libraries: reads the symbols, sections, relocations and instructions of target/staticlib/librunner.a and libcreate.a (nm,
objdump), requires what the page says of them in words, and compares the page's table of numbers with what it counts. Then builds and runs c/embedding.c,
which tries what the page says of the calls.

  tests/embedding.py            status 0 only if all holds; 3 if the libraries or the tools are not here
  tests/embedding.py --write    writes the table into the page
"""
import re
import shutil
import subprocess
import sys
import tempfile
from pathlib import Path

root = Path(__file__).resolve().parent.parent
page = root / "docs/embedding.md"
libraries = {name: root / f"target/staticlib/lib{name}.a" for name in ("runner", "create")}
BEGIN, END = "<!-- counted by tests/embedding.py -->\n", "<!-- end -->"
RED_ZONE = 128
NEEDS = {"gurtxozal_create": set()}  # the symbols that a library may need, by what it gives: creation none
faults = []


def require(holds, what):
    if not holds:
        faults.append(what)


def told(*command):
    done = subprocess.run(command, capture_output=True, text=True)
    if done.returncode != 0:
        sys.exit(f"{' '.join(command)}: {done.stderr.strip()}")
    return done.stdout


class Function:
    def __init__(self):
        self.code, self.calls = [], set()


def functions(library):
    """Each function's instructions (mnemonic and operands) and what it calls or jumps to outside itself."""
    found, name = {}, None
    for line in told("objdump", "-dr", "--no-show-raw-insn", "-w", str(library)).split("\n"):
        head = re.match(r"^[0-9a-f]+ <(.+)>:$", line)
        moved = re.search(r"(R_X86_64_\w+)\s+(\S+)", line)
        if head:
            name = head.group(1)
            found[name] = Function()
        elif name and "\t" in line:
            text = line.split("\t", 1)[1].split("R_X86_64")[0].strip()
            text = re.sub(r"\s+#.*$", "", re.sub(r"\s[0-9a-f]+:\s*$", "", text)).strip()
            if text and not re.match(r"^[0-9a-f]+:", text):
                found[name].code.append(text)
        if name and moved:
            target = re.sub(r"[-+]0x[0-9a-f]+$", "", moved.group(2))
            if not target.startswith(".rodata"):
                found[name].calls.add(re.sub(r"^\.text\.", "", target))
    return found


def below(text):
    """How far below the stack pointer an instruction reaches; 0 if it does not."""
    return max([int(n, 16) for n in re.findall(r"-0x([0-9a-f]+)\(%rsp", text)], default=0)


def frame(name, function):
    """At most so many bytes of the stack are a function's own: all its pushes and its largest room, whichever path it takes."""
    pushes = sum(1 for text in function.code if re.match(r"push\b", text))
    rooms = [int(n, 16) for text in function.code for n in re.findall(r"^sub\s+\$0x([0-9a-f]+),%rsp$", text)]
    # 128 bytes are taken by adding a negative number
    rooms += [2**64 - int(n, 16) for text in function.code for n in re.findall(r"^add\s+\$0x(f{8}[0-9a-f]{8}),%rsp$", text)]
    for text in function.code:
        require(re.match(r"^((add|sub)\s+\$|cmp|test)", text) or not re.search(r",%rsp$", text), f"{name} changes the stack pointer by '{text}', which is not counted")
    return 8 * pushes + sum(room for room in rooms if room < 2**32)


def depth(name, all, path=()):
    """At most so many bytes of the stack a call of a function takes, its return address included, but for what memcpy and memset take themselves."""
    require(name not in path, f"{name} calls itself, so its stack has no bound here")
    if name not in all or name in path:
        return 8
    deeper = [depth(other, all, path + (name,)) for other in all[name].calls]
    return 8 + frame(name, all[name]) + max(deeper + [below(text) for text in all[name].code], default=0)


def facts(library, gives):
    """A library's numbers for the table; what the page says in words is required on the way."""
    name = library.name
    symbols = [line.split() for line in told("nm", "-g", str(library)).split("\n") if line and not line.endswith(":")]
    undefined = sorted(words[-1] for words in symbols if words[-2] == "U")
    defined = sorted(words[-1] for words in symbols if words[-2] != "U")
    require(defined == [gives], f"{name} gives {defined}")
    require(set(undefined) <= NEEDS.get(gives, {"memcpy", "memset"}), f"{name} needs {undefined}")
    sections = re.findall(r"^ +\d+ (\S+) +([0-9a-f]{8}) +\S+ +\S+ +\S+ +\S+ +(.*)$", told("objdump", "-h", "-w", str(library)), flags=re.M)
    require(len(sections) > 1, f"the sections of {name} are not read")
    written = [section for section, size, flags in sections if "ALLOC" in flags and "READONLY" not in flags and int(size, 16) > 0]
    require(not written, f"{name} has data that is written: {written}")
    relocations = set(re.findall(r"R_X86_64_\w+", told("objdump", "-r", str(library))))
    require(relocations <= {"R_X86_64_PC32", "R_X86_64_PLT32"}, f"{name} has relocations {sorted(relocations)}")
    require("elf64-x86-64" in told("objdump", "-f", str(library)), f"{name} is not for x86-64")
    all = functions(library)
    code = [text for function in all.values() for text in function.code]
    sse = [text for text in code if "%xmm" in text]
    forbid = lambda texts, what: require(not texts, f"{name} {what}: {texts[:3]}")
    forbid([text for text in code if re.search(r"%(ymm|zmm|st\b|mm\d|k[0-7]\b)", text) or re.match(r"^f[a-z]", text)], "uses wider registers or x87")
    forbid([text for text in sse if not re.match(r"^(mov[au]ps|movdq[au]|movsd|movq|movd|mov[hl]ps|movhlps|movlhps|unpcklpd|punpcklqdq|pshufd|shufp[sd]|pextrw|xorps|pxor)\b", text)], "computes in SSE registers")
    forbid([text for text in sse if re.match(r"^(movaps|movdqa)\b", text) and re.search(r"\((?!%rsp|%rip)", text)], "asks more than 8 of the alignment of lent words")
    forbid([text for text in code if re.match(r"^(rep\w*|syscall|sysenter|int|in|out|ins|outs|hlt|std|cld|sti|cli|rdtsc|cpuid|xsave|lock|wrmsr|rdmsr|ud2)\b", text)], "has instructions of another kind")
    forbid([text for text in code if text.startswith(("endbr", "notrack"))], "is made for indirect branch tracking")
    forbid([text for text in code if re.match(r"^call\s+\*", text)], "calls through a pointer")
    require(max(map(below, code)) <= RED_ZONE, f"{name} reaches further than {RED_ZONE} bytes below the stack pointer")
    return {
        "undefined symbols": ", ".join(undefined) or "none",
        "instructions that use SSE registers": len(sse),
        "which registers": ", ".join(sorted({r for text in sse for r in re.findall(r"xmm\d+", text)}, key=lambda r: int(r[3:]))) or "none",
        "instructions that reach below the stack pointer": sum(1 for text in code if below(text)),
        "functions that do, of all": f"{sum(1 for f in all.values() if any(map(below, f.code)))} of {len(all)}",
        "the farthest, bytes below": max(map(below, code)),
        "jumps through a table": sum(1 for text in code if re.match(r"^jmp\s+\*", text)),
        "stack at most, by the instructions, bytes": f"{max(depth(symbol, all) for symbol in defined):,}",
    }


def counted():
    runner, create = facts(libraries["runner"], "gurtxozal_run"), facts(libraries["create"], "gurtxozal_create")
    return "\n".join(["| | librunner.a | libcreate.a |", "|---|---|---|"] + [f"| {key} | {runner[key]} | {create[key]} |" for key in runner]) + "\n"


BAD = """
#include <stdlib.h>
static int kept[4];
int *where(int n) { kept[n & 3]++; return kept; }
void *more(unsigned long n) { return malloc(n); }
double half(double x) { return x / 2; }
long double third(long double x) { return x / 3; }
int through(int (*f)(int)) { return f(1) + 1; }
int again(int n) { return n > 1 ? again(n - 1) * again(n - 2) : n; }
void use(char *);
void room(unsigned long n) { char x[n]; use(x); use(x); }
void now(void) { __asm__ volatile("rdtsc; movaps %xmm0,(%rdi); mov %rax,-0x90(%rsp); endbr64"); }
"""
CAUGHT = "gives|needs|has data that is written|has relocations|uses wider registers or x87|computes in SSE registers|asks more than 8|has instructions of another kind|is made for indirect branch tracking|calls through a pointer|reaches further than|calls itself|changes the stack pointer by"


def caught():
    """A library that has everything that the page rules out: each must be found."""
    global faults
    kept, faults = faults, []
    with tempfile.TemporaryDirectory() as work:
        Path(f"{work}/bad.c").write_text(BAD)
        told("cc", "-O1", "-fno-pic", "-fcf-protection=none", "-fno-stack-protector", "-c", f"{work}/bad.c", "-o", f"{work}/bad.o")
        told("ar", "rc", f"{work}/bad.a", f"{work}/bad.o")
        facts(Path(f"{work}/bad.a"), "nothing")
    found, faults = faults, kept
    for what in CAUGHT.split("|"):
        require(any(what in fault for fault in found), f"a library that '{what}' is not caught")


def numbers(text):
    """What the page says with a number that stands elsewhere too."""
    state = lambda t, p, f, o, r: 16 + 16 * t + 5 * p + f + -(-f // 16) - (-f // 256) - (-f // 4096) + 384 * f + 8 * o + 392 * r
    for sizes, words in re.findall(r"^\| ([\d, ]+) \| ([\d,]+) words", text, flags=re.M):
        require(state(*[int(n) for n in sizes.replace(",", "").split()]) == int(words.replace(",", "")), f"a state of {sizes} has {words} words")
    require(len(re.findall(r"^\| [\d, ]+ \| [\d,]+ words", text, flags=re.M)) >= 3, "the page's table of sizes is not read")
    formats = (root / "docs/formats.md").read_text()
    maps = re.findall(r"^\| .* \| (\d+) \|[^|]*\| (\d+) \|$", formats, flags=re.M)
    longest = max(1 + bin(int(must) | int(may)).count("1") for must, may in maps)
    require(len(maps) == 30 and f"at most {longest} words" in text and f"at most {65 * longest}" in text, f"the longest of {len(maps)} records has {longest} words")
    bound = re.search(r"BOUND = (\d+)", (root / "c/stack.c").read_text()).group(1)
    require(f"{int(bound):,} bytes of stack" in text, f"c/stack.c's bound is {bound}")
    deepest = re.search(r"^\| stack at most[^|]*\| ([\d,]+) \|", text, flags=re.M).group(1)
    require(int(deepest.replace(",", "")) < int(bound), f"by the instructions a call may take {deepest} bytes of stack, and the bound is {bound}")
    table = re.search(r"^\| words \| check \|.*?\n\n", (root / "docs/performance.md").read_text(), flags=re.M | re.S).group(0)  # the first one: this build's
    checks = re.findall(r"^\| (\d[\d,]*\d)(?:, [^|]*)? \| ([\d,]+) ns \| [\d,]+ ns \|", table, flags=re.M)
    times = [int(ns.replace(",", "")) / int(words.replace(",", "")) for words, ns in checks]
    require(times and f"{min(times):.1f} to {max(times):.1f} ns a word" in text, f"docs/performance.md has {[f'{t:.1f}' for t in times]} ns a word for the check")
    answer = re.search(r"ANSWER_WORDS = (\d+)", (root / "c/gurtxozal.h").read_text()).group(1)
    require(f"{answer} words for each request" in text and f"needs {answer} n" in text, f"an answer has {answer} words")


def tried():
    """c/embedding.c, with the lent words as the page asks."""
    with tempfile.TemporaryDirectory() as work:
        built = subprocess.run(
            ["cc", "-std=gnu11", "-Wall", "-Wextra", "-Werror", "-O1", "-I", str(root / "c"), str(root / "c/embedding.c"), *map(str, libraries.values()), "-o", f"{work}/embedding"],
            capture_output=True,
            text=True,
        )
        require(built.returncode == 0, "c/embedding.c does not build: " + built.stderr)
        if built.returncode == 0:
            done = subprocess.run([f"{work}/embedding"], capture_output=True, text=True)
            print(done.stdout, end="")
            require(done.returncode == 0, "c/embedding.c finds the calls otherwise than the page says")


def main():
    for tool in ("nm", "objdump", "cc"):
        if shutil.which(tool) is None:
            print(f"there is no {tool} here")
            sys.exit(3)
    missing = [str(library) for library in libraries.values() if not library.is_file()]
    if missing:
        print(f"{missing[0]} is not there: c/libraries.py makes it")
        sys.exit(3)
    text = page.read_text()
    table = counted()
    before, _, rest = text.partition(BEGIN)
    old, _, after = rest.partition(END)
    if sys.argv[1:] == ["--write"]:
        page.write_text(before + BEGIN + table + END + after)
    elif sys.argv[1:]:
        sys.exit("usage: tests/embedding.py [--write]")
    else:
        require(old == table, "the page's table is not what is counted:\n" + table)
        numbers(text)
        caught()
        tried()
    for fault in faults:
        print(fault)
    print("docs/embedding.md is " + ("not " if faults else "") + "what the libraries are")
    sys.exit(1 if faults else 0)


main()
