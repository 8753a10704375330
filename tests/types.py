#!/usr/bin/env python3
"""Slips: "a session number given where a role belongs must be caught when the program is built".

Every public function of the engine that takes or hands back a user, a role, a session or a set, and every command and question, is called with
the right numbers, which the compiler accepts, and with each wrong kind of number in each place, which it must refuse as a mismatch of types. And no
public function of these crates takes or hands back a bare number but those of BARE. The compiler reads the crates' sources and proves nothing.
"""
import re
import subprocess
import sys
import tempfile
from pathlib import Path

ROOT = Path(__file__).resolve().parent.parent
KINDS = ["User", "Role", "Session", "SetName"]

# The compiler shows 20 errors at most.
MOST = 20

# The crates of the engine that speak of these numbers; each has slips to try.
ENGINE = "numbers hierarchy model state sweeps users roles assigning granting inheriting sets sessions checking reviews".split()

# What a bare number may be: an operation, an object, a permission, a cardinality, a place in the state, the number of an answer.
BARE = {"op", "obj", "p", "card"}
BARE_IN = {"sets.make_set n", "sets.set_cardinality n", "state.parts.sets_from", "numbers.answer_of n", "numbers.number_of"}


# A review answers how many results there are.
COUNTS = "reviews."


def stop(text):
    print("types: " + text)
    sys.exit(1)


def items(crate):
    """What a crate offers: the path of each public function or variant, its parameters with their types, and its result."""
    for file in sorted((ROOT / "crates" / crate / "src").glob("*.rt")):
        text = re.sub(r"//[^\n]*", "", file.read_text(encoding="utf-8"))
        path = [crate] + ([] if file.stem == "lib" else [file.stem])
        homes = {t: f"{crate}::{t}" for t in re.findall(r"\bpub (?:struct|enum) (\w+)", text)}
        for front, names in re.findall(r"^use ([\w:]+?)(?:::\{([\w\s,:]*)\})?;", text, re.M):
            for name in [front + "::" + n.strip() for n in names.split(",") if n.strip()] or [front]:
                homes[name.split("::")[-1]] = re.sub(r"^crate::", crate + "::", name)
        for name, takes, gives in re.findall(r"\bpub fn (\w+)(?:<[^>]*>)?\(([^)]*)\)(?:\s*->\s*([^\n{]+))?", text):
            pairs = [p.split(":", 1) for p in re.sub(r"'\w+ ", "", takes).split(",") if p.strip()]
            yield "::".join(path + [name]), [(n.strip(), " ".join(t.split())) for n, t in pairs], gives.strip(), homes
        for enum, variants in re.findall(r"\bpub enum (\w+) \{(.*?)\n\}", text, re.S):
            for name, takes in re.findall(r"(\w+)\(([^)]*)\)", variants):
                yield "::".join(path + [enum, name]), [(f"a{i}", t.strip()) for i, t in enumerate(takes.split(","))], "", homes


def bare(path, takes, gives):
    """The bare numbers of a function that are not said to be right."""
    name = path.replace("::", ".")
    found = [n for n, t in takes if t in ("u16", "usize") and not re.fullmatch(r"a\d", n) and n not in BARE and f"{name} {n}" not in BARE_IN]
    held = re.fullmatch(r"(?:Option<|Result<)*(u16|usize)(?:>|, Refusal>)*", gives)
    return found + ["its result"] * (held is not None and name not in BARE_IN and not name.startswith(COUNTS))


class Program:
    """Calls, one to a line: right ones, and slips with what the compiler must say of each."""

    def __init__(self):
        self.uses, self.lines, self.slips = set(), [], {}

    def call(self, path, takes, homes, back="", slip=None):
        for word in re.findall(r"\b[A-Z]\w*", " ".join([t for _, t in takes] + [back])):
            if word not in ("Option", "Result"):
                self.uses.add("numbers::" + word if word in KINDS + ["Refusal"] else homes.get(word) or stop(f"{path}: where is {word}?"))
        given = ", ".join(f"{n}: {t}" for n, t in takes)
        hold = f"let held: {back} = " if back else "let _ = "
        self.lines.append(f"fn call_{len(self.lines)}({given}) {{ {hold}{path}({', '.join(n for n, _ in takes)}); }}")
        if slip:
            self.slips[len(self.lines)] = "error[mismatched-types]: expected `%s`, found `%s`" % slip

    def text(self):
        return "\n".join(self.lines + [f"use {u};" for u in sorted(self.uses)] + ["fn main() {}", ""])


def holds(gives):
    """The kind of number that a result is or, where there is one, holds."""
    found = re.fullmatch(r"(?:Option<|Result<)*(\w+)(?:>|, Refusal>)*", gives)
    return found[1] if found and found[1] in KINDS else ""


def slips(takes, gives):
    """The slips of one function: each place with each wrong kind, as its call's parameters, its result, and what the compiler must say."""
    for i in [i for i, (_, t) in enumerate(takes) if t in KINDS]:
        for kind in [k for k in KINDS if k != takes[i][1]]:
            yield takes[:i] + [(takes[i][0], kind)] + takes[i + 1 :], "", (takes[i][1], kind)
    held = holds(gives)
    for kind in [k for k in KINDS if held and k != held]:
        back = re.sub(rf"\b{held}\b", kind, gives)
        yield takes, back, (back, gives)


def programs():
    """Programs of at most MOST slips, each with the right call of every function that it slips in."""
    program = Program()
    for crate in ENGINE:
        some = False
        for path, takes, gives, homes in items(crate):
            if found := bare(path, takes, gives):
                stop(f"{path} has a bare number: {', '.join(found)}")
            wrong = list(slips(takes, gives))
            if len(program.slips) + len(wrong) > MOST:
                yield program
                program = Program()
            if wrong:
                program.call(path, takes, homes, gives if holds(gives) else "")
            for given, back, slip in wrong:
                program.call(path, given, homes, back, slip)
            some = some or bool(wrong)
        if not some:
            stop(f"crates/{crate} has no slip to try")
    yield program


def libraries(home):
    """How the compiler is given the engine's crates, and what they use, as sources, each after those that it uses; of the toolchain, its built libraries."""
    lines = (ROOT / "crates.txt").read_text(encoding="utf-8").splitlines()
    uses = {c.split()[0]: u.split() for c, _, u in (line.split("#")[0].partition(":") for line in lines) if c.strip()}
    words, done = ["-L", f"dependency={home}/rlibs"], []

    def add(crate):
        if crate in done:
            return
        done.append(crate)
        if crate not in uses:
            words.extend(["--extern", f"{crate}={home}/rlibs/{crate}.rlib"])
            return
        for used in ["core", "std"] + uses[crate]:
            add(used)
        words.extend(["--lib", f"{crate}:{','.join(['core', 'std'] + uses[crate])}={ROOT}/crates/{crate}/src/lib.rt"])

    for crate in ENGINE:
        add(crate)
    return words


def said(program, room, home):
    """What the compiler says of a program over the engine's crates, line by line, and the whole of it. `--only ''`: it proves nothing."""
    source = Path(room) / "slips" / "src" / "main.rt"
    source.parent.mkdir(parents=True, exist_ok=True)
    source.write_text(program.text(), encoding="utf-8")
    words = ["--crate-name", "slips", "src/main.rt", *libraries(home), "--antt-project", f"{home}/rattle/logic/antt-project.json", "--logic-built", f"{home}/logic_built", "--jobs", "1", "--only", ""]
    run = subprocess.run([f"{home}/bin/rattle", "check", *words], cwd=source.parent.parent, capture_output=True, text=True)
    out = run.stdout + run.stderr
    return {int(n): m for n, m in re.findall(r"main\.rt:(\d+):\d+: (error.*)", out)}, out


def main():
    calls = tried = 0
    home = Path(subprocess.run(["rt", "doc"], stdin=subprocess.DEVNULL, capture_output=True, text=True, check=True).stdout.strip()).parent
    with tempfile.TemporaryDirectory() as room:
        for program in programs():
            errors, out = said(program, room, home)
            for n, line in enumerate(program.lines, 1):
                asked, told = program.slips.get(n), errors.get(n)
                if asked != told:
                    stop(f"{'REFUSED, and is right' if not asked else 'refused for another reason' if told else 'NOT REFUSED'}: {line}\n{told or out[:1500]}")
            calls, tried = calls + len(program.lines) - len(program.slips), tried + len(program.slips)
    print(f"types: {calls} functions, commands and questions, called rightly and with {tried} slips, each refused as a mismatch of types")


main()
