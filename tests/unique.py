#!/usr/bin/env python3
"""Writes the lines of crates/unique that say one thing of each public function: that any two outcomes which meet its promise are equal; of the
functions that change the state and answer, that what they hand back can be reached; of the commands and reviews, what their calls tell; of what is
lent a buffer, what it leaves in it.

    tests/unique.py            compares what is there with what would be written, and fails where they differ
    tests/unique.py --write    writes it

The lines stand between marks in the files of FILES; what is outside the marks is written by hand. What a line says comes from the function's
signature (its kind: what is lent to be changed, and whether the result is a part of what was lent). How it is proved comes from the form of its
`ensures`: an equation, or a named promise H, for which crates/unique/proofs/Unique.antt has the law h_one. So a new function needs no line written
by hand unless its promise is of a new form.
"""
import difflib
import re
import sys
import textwrap
from pathlib import Path

ROOT = Path(__file__).resolve().parent.parent
HOME = ROOT / "crates" / "unique"

# Public functions with no line (docs/DECISIONS.md, 'Exceptions to uniqueness'): they take a reader, a writer or a runtime of any type, and how far that comes
# before it fails no contract can say. (`say` fixes the status that it gives back.)
WITHOUT = {"streams.read_whole", "streams.write_whole", "streams.write_next", "streams.say"}

# Promises that have another's law: they are that promise by definition, or two crates use one name.
LAW_OF = {
    "reviews.Asked": "reviewed_one",
    "engine.AskedAny": "reviewed_one",
    "script.Answers": "answered_one",
    "clibrary.Loads": "loaded_one",
}

# The proofs of promises that have no name: x and y are the results, p and q that they meet the promise, vx and vy that they are of their type.
BY_HAND = {
    "roleset.count": "p.0 ∙ sym q.0",
    "roleset.size": "p.0 ∙ sym q.0",
    "roleset.lowest": "laws.{lowest_one} a.0 x y p q",
    "sweeps.lowest_free": "laws.{free_one} _ p q",
    "textlines.Reader.next": "λ i. ((p.0 ∙ sym q.0) i, record { src = (p.1.0 ∙ sym q.1.0) i; at = (p.1.1 ∙ sym q.1.1) i })",
    "roleset.members": "laws.{ascending_one} x y (p ∙ sym q)",
    "hierarchy.turned": "laws.arrays 64 x y _ vx.1.1.0.1 vy.1.1.0.1 p q",
}

# The state's type; every other array that is lent to be changed is a buffer.
STATE = "[u64; PLACES]"

FILES = ["specs/Promises.antt", "proofs/Promises.antt", "specs/Handed.antt", "proofs/Handed.antt"]
FILES += ["specs/OwnCalls.antt", "proofs/OwnCalls.antt", "specs/Buffers.antt", "proofs/Buffers.antt"]
BEGIN = "-- ---- written by tests/unique.py: "
END = "-- ---- end of what tests/unique.py writes"


def stop(text):
    print("unique: " + text)
    sys.exit(1)


# ---- the sources

SIGNATURE = r'pub\s+(extern\s+""\s+)?fn\s+\w+'


def bare(path):
    """The text of a source file with comments and the insides of texts blanked out; lines keep their numbers."""
    text = path.read_text(encoding="utf-8")
    out, i, depth = [], 0, 0
    while i < len(text):
        two = text[i : i + 2]
        if two == "/*":
            depth, i = depth + 1, i + 2
        elif depth and two == "*/":
            depth, i = depth - 1, i + 2
        elif depth:
            out.append("\n" if text[i] == "\n" else "")
            i += 1
        elif two == "//":
            while i < len(text) and text[i] != "\n":
                i += 1
        elif text[i] == '"':
            i += 1
            while i < len(text) and text[i] != '"':
                i += 2 if text[i] == "\\" else 1
            out.append('""')
            i += 1
        elif quoted := re.match(r"'(\\.[^']*|[^'\\])'", text[i:]):
            out.append("''")
            i += quoted.end()
        else:
            out.append(text[i])
            i += 1
    return "".join(out)


def split(text):
    """The parts of a list, at the commas that stand in no bracket."""
    parts, depth, part = [], 0, ""
    for c in text:
        depth += (c in "([{<") - (c in ")]}>")
        if c == "," and depth == 0:
            parts.append(part)
            part = ""
        else:
            part += c
    return [" ".join(p.split()) for p in parts + [part] if p.strip()]


def closing(text, i):
    """The place after the bracket that closes the one at i."""
    depth = 0
    for j in range(i, len(text)):
        depth += (text[j] in "([{") - (text[j] in ")]}")
        if depth == 0:
            return j + 1
    stop("a bracket is not closed")


class Function:
    def __init__(self, crate, where, name, text, of=""):
        """A function from its signature on: what it takes, its result and its promise; of which type it is a method."""
        self.crate, self.place, self.name, self.of = crate, where + "." + name, name, of
        begins = re.match(SIGNATURE + r"\s*(<[^(]*>)?\s*", text)
        at, over = begins.end(), [p.split(":") for p in split((begins[2] or "<>")[1:-1]) if not p.startswith("'")]
        if len(over) > 1 or any(len(p) != 2 for p in over):
            self.bad("has other parameters than one type with one bound")
        self.bound = over[0][1].strip() if over else ""
        end = closing(text, at)
        plain = lambda t: re.sub(r"&\s*'\w+\s+", "&", " ".join(t.split()))
        typed = lambda p: p.split(":", 1)[1] if ":" in p else re.sub(r"\bself$", of, p)
        self.types = [plain(typed(p)) for p in split(text[at + 1 : end - 1])]
        told = re.compile(r"\s*->\s*(.*?)\s*(?=\bensures\b|\brequires\b|\{)", re.S).match(text, end)
        self.result = plain(told[1]) if told else ""
        end = told.end() if told else end
        promises = []
        while clause := re.compile(r"\s*(ensures|requires)(?:\s+\w+)?\s*(?=\{)").match(text, end):
            end = closing(text, clause.end())
            if clause[1] == "requires":
                stop(f"{self.place} has a `requires`: no public function supposes anything (docs/DECISIONS.md, 'Suppositions')")
            promises.append(text[clause.end() + 1 : end - 1])
        if not promises:
            self.bad("has no promise `ensures { .. }`")
        # several are met together, one after another
        self.promise = " × ".join(" ".join(p.split()) for p in promises)

    def bad(self, why):
        stop(f"{self.place} {why}, which tests/unique.py does not know")

    def field(self):
        return re.sub(r"(?<!^)(?=[A-Z])", "_", self.of).lower() + "_" + self.name if self.of else self.name

    def kind(self):
        """The kind of statement, and what follows the contract in it."""
        states = [i for i, t in enumerate(self.types) if t == "&mut " + STATE]
        buffers = [i for i, t in enumerate(self.types) if re.fullmatch(r"&mut \[.*\]", t) and i not in states]
        numbers = [i for i, t in enumerate(self.types) if re.fullmatch(r"&mut (u8|u16|u32|u64|usize)", t)]
        structs = [i for i, t in enumerate(self.types) if self.of and t == f"&mut {self.of}"]
        known = len(states) + len(buffers) + len(numbers) + len(structs)
        if known != sum("&mut" in t for t in self.types):
            self.bad("is lent to change what is neither an array, a number nor its own struct")
        after = lambda i: f"(λ κs e. e.{place(i)}.now)"
        seen = re.fullmatch(r"&\[.*\]", self.result)
        if seen and known == 0:
            return "UniqueSeen", ["(λ κs x e. x.now)"]
        if known == len(structs) == 1 and (seen or not self.result):
            lent = f"e.{place(structs[0])}.now"
            return (f"UniqueSeen {{A = List ℕ × {self.of}}}", [f"(λ κs x e. (x.now, {lent}))"]) if seen else ("UniqueLent", [f"(λ κs e. {lent})"])
        if seen and known == len(numbers) == 1:
            return "UniqueSeen {A = List ℕ × ℕ}", [f"(λ κs x e. (x.now, e.{place(numbers[0])}.now))"]
        if numbers and not seen and len(numbers) == 1 and len(buffers) <= 1 and not states:
            at = f"e.{place(numbers[0])}.now"
            if buffers:
                return "UniqueLent {A = List ℕ × ℕ}", [f"(λ κs e. (e.{place(buffers[0])}.now, {at}))"]
            return "UniqueLent {A = ℕ}", [f"(λ κs e. {at})"]
        if len(numbers) == known == 2 and not seen:
            return "UniqueLent {A = ℕ × ℕ}", [f"(λ κs e. (e.{place(numbers[0])}.now, e.{place(numbers[1])}.now))"]
        if "&" in self.result or numbers or len(states) > 1 or len(buffers) > 1:
            self.bad("lends or is lent several things")
        if states and buffers:
            return "UniqueBoth", [after(states[0]), after(buffers[0])]
        if states:
            return "UniqueState", [after(states[0])]
        if buffers:
            return "UniqueLent", [after(buffers[0])]
        return "Unique", []

    def statement(self):
        kind, seen = self.kind()
        f = self.place
        parts = [f + ".Kinds.ps", f + ".Kinds.r", f + ".Reads.Post"]
        if self.bound:
            # of any type that has the bound: with its laws, what the trait's ghost members are of it, and its table of methods
            parts = [f"({parts[0]} T L)", f"({parts[1]} T L)", f"({parts[2]} T L g d)"]
            kind = f"(T : RattleType) (L : Laws T) (g : {self.trait()}.Ghosts T.Denot) (d : Dict) → {kind}"
        return f"  pub {self.field()} : " + " ".join([kind] + parts + seen)

    def trait(self):
        """What the trait of the bound is called in specs/Promises."""
        return f"{self.bound}_of_{self.crate}"

    def equation(self):
        """The left side of the promise, where that is an equation."""
        depth, sides = 0, [""]
        for word in re.findall(r"[()]|[^\s()]+", self.promise):
            depth += (word == "(") - (word == ")")
            if depth == 0 and word in ("→", "×", "⊎", "↔"):
                return None
            if depth == 0 and word == "≡":
                sides.append("")
            else:
                sides[-1] += " " + word
        return re.sub(r"(?<=\() | (?=\))", "", sides[0]).strip() if len(sides) == 2 else None

    def proof(self, laws):
        kind = self.kind()[0].split()[0]
        given = {"Unique": "vx vy ", "UniqueLent": "vx vy ", "UniqueSeen": "", "UniqueState": "sx sy ", "UniqueBoth": "sx sy "}[kind]
        states = given if given == "sx sy " else ""
        left, name = self.equation(), re.match(r"[A-Z]\w*(?= )", self.promise)
        if self.place in BY_HAND:
            by = re.sub(r"\{(\w+)\}", lambda m: laws[m[1]], BY_HAND[self.place])
        elif kind in ("Unique", "UniqueSeen") and left in ("result", "result.now"):
            by = "p ∙ sym q"
        elif kind == "UniqueLent" and self.result == "" and left == "self.new":
            by = "(refl, p ∙ sym q)"
        elif kind == "Unique" and left == "Some result":
            by = f"laws.{laws['some_one']} p q"
        elif kind == "Unique" and left == "number_of result":
            by = f"laws.{laws['numbers_one']} p q"
        elif kind == "UniqueState" and self.result == "" and left and re.fullmatch(r"view \w+\.new", left):
            by = "(refl, laws.states sx sy p q)"
        elif kind == "UniqueState" and self.tells():
            by = "laws.outcomes sx sy p q"
        elif left and (told := re.match(r"told_\w+(?= )", left)) and told[0] + "_one" in laws:
            by = f"laws.{laws[told[0] + '_one']} {states or '_ '}p q"
        elif left is None and name:
            law = LAW_OF.get(f"{self.crate}.{name[0]}", re.sub(r"(?<!^)(?=[A-Z])", "_", name[0]).lower() + "_one")
            if law not in laws:
                stop(f"{self.place} promises {name[0]}: write the law {law} in crates/unique/proofs/Unique.antt (two outcomes that meet it are one)")
            by = f"laws.{laws[law]} {states}p q"
        else:
            stop(f"{self.place} has a promise of a new form: write its proof in BY_HAND of tests/unique.py")
        of = "T L g d " if self.bound else ""
        return f"      {self.field()} = λ {of}κs a x y e f {given}p q. {by};"

    def tells(self):
        """Whether the promise is a command's: the answer and the state tell what the model's definition tells."""
        left = self.equation()
        return bool(left and re.fullmatch(r"told result \w+\.new", left))

    # ---- what a function hands back

    def hands_back(self):
        """Whether it changes the state and answers: a command, a step, a load or a line; or starts it anew (`state::stores::start` is written by hand)."""
        starts = self.promise == "view state.new ≡ empty" and self.place != "state.stores.start"
        return (self.result != "" or starts) and "&mut " + STATE in self.types

    def constructor(self):
        at = place(self.types.index("&mut " + STATE))
        f = self.place
        # a promise that says nothing of what was there holds of any numbers: it is a start
        given = f"Handed c.given.{at}.now → " if ".old" in self.promise else ""
        return f"  {self.field()} : (c : Call {f}.Kinds.ps {f}.Kinds.r {f}.Reads.Post) → {given}Handed c.exits.{at}.now"

    def reached(self, arms):
        if self.place not in arms:
            stop(f"{self.place} answers as a command does, and `engine::step` has no arm that calls it")
        variant, numbers, given = arms[self.place]
        arguments = " ".join(f"c.given.{place(given.index(n))}" for n in numbers)
        named = f"c.given.{place(given.index('list'))}.now" if "list" in given else "[]"
        command = f"commands.{variant}"
        return f"reachable ({self.field()} c h) = stepped _ (reachable h) " + (f"({command} {arguments})" if numbers else command) + f" {named} c.result _ c.met"


def place(i):
    """The i-th of so many things side by side."""
    return "1." * i + "0"


def blocks(text, word):
    """The blocks of a file that begin with this word, at its left edge: what stands before the brace, and what is within."""
    for m in re.finditer(rf"^{word}\b((?:\[[^\]]*\]|[^{{;])*)\{{", text, re.M):
        yield " ".join(m[1].split()), text[m.end() : closing(text, m.end() - 1) - 1]


def without(place):
    """Whether a public function that is there has no line."""
    if place in WITHOUT:
        met.add(place)
    return place in WITHOUT


def traits():
    """The public traits of the repository, each with what stands in it."""
    found = {}
    for path in sorted(ROOT.glob("crates/*/src/**/*.rt")):
        for head, body in blocks(bare(path), "pub trait"):
            name = re.match(r"\w+", head)[0]
            if name in found:
                stop(f"two public traits have the name {name}")
            found[name] = body
    return found


def methods_of(crate, text, where):
    """The public methods of a module's types: those of an `impl` of a type, and of each public type that a trait of the repository is for. A trait's method is proved
    for each type, under the type's and the trait's name together, and promises of each what the trait says. (The library's traits say what their methods promise.)"""
    for head, body in blocks(text, "impl"):
        head = re.sub(r"^<[^>]*>\s*", "", head)
        trait, _, of = head.partition(" for ") if " for " in head else ("", "", head)
        array = re.match(r"\[(\w+); (\w+)\]", of)
        of = f"Array{array[1].title()}{array[2]}" if array else re.match(r"\w+", of)[0]
        if trait and (trait not in TRAITS or not (array or re.search(rf"^pub (?:struct|enum) {of}\b", text, re.M))):
            continue
        found = r"^    fn\s+(\w+)" if trait else r"^    pub\s+fn\s+(\w+)"
        for m in re.finditer(found, TRAITS[trait] if trait else body, re.M):
            at, signature = m.start(), TRAITS[trait] if trait else body
            if without(f"{where}.{of}{trait}.{m[1]}"):
                continue
            yield Function(crate, f"{where}.{of}{trait}", m[1], ("pub " if trait else "") + signature[at:].lstrip(), of)


def functions_of(crate, path, where, below):
    """The public functions of a module and of the public modules in it."""
    if not path.is_file():
        stop(f"there is no {path.relative_to(ROOT)}")
    text = bare(path)
    found = []
    for m in re.finditer(r'^pub\s+(?!\()(?:[\w"]+\s+)*?fn\s+(\w+)', text, re.M):
        if text.count("{", 0, m.start()) != text.count("}", 0, m.start()) or not re.match(SIGNATURE, m[0]):
            stop(f"{where}.{m[1]} is a public function within a block or of another kind, which tests/unique.py does not know")
        if without(f"{where}.{m[1]}"):
            continue
        found.append(Function(crate, where, m[1], text[m.start() :]))
    found += methods_of(crate, text, where)
    # every function that is public has been found, at the left edge or in an `impl`
    seen = [f for f in found if not f.of or re.search(rf"\bpub\s+fn\s+{f.name}\b", text)] + [p for p in WITHOUT if p.rpartition(".")[0] == where]
    if len(re.findall(r'\bpub\s+(?!\()(?:[\w"]+\s+)*?fn\s', text)) != len(seen):
        stop(f"{path.relative_to(ROOT)} has a public function at a place that tests/unique.py does not know")
    if re.search(r"\bpub\s+use\b", text):
        stop(f"{path.relative_to(ROOT)} has a `pub use`, which tests/unique.py does not know")
    for m in re.finditer(r"\bpub\s+mod\s+(\w+)\s*;", text):
        found += functions_of(crate, below / (m[1] + ".rt"), f"{where}.{m[1]}", below / m[1])
    if re.search(r"\bpub\s+mod\s+\w+\s*\{", text):
        stop(f"{path.relative_to(ROOT)} has a public module in a block, which tests/unique.py does not know")
    return found


def exported(crate, crates):
    """A static library is no library that crates/unique could cite: each of its functions promises, word for word, what the function of that name in the library
    below it does, which has a line."""
    below = {f.name: f for f in crates.get(crate.removesuffix("_c"), [])}
    for f in functions_of(crate, ROOT / "crates" / crate / "src" / "lib.rt", crate, ROOT / "crates" / crate / "src"):
        other = below.get(f.name)
        if not other or (f.types, f.result, f.promise) != (other.types, other.result, other.promise):
            stop(f"{f.place} is not as {crate.removesuffix('_c')}.{f.name}: it takes, hands back or promises something else")


def arms_of(path):
    """Which command of the model each function is: the arms of `engine::step`, as (variant, its numbers, what the function is given)."""
    arms = {}
    for m in re.finditer(r"Command::(\w+)(?:\(([^)]*)\))?\s*=>[^=]*?\b((?:\w+::)+\w+)\(\s*(state\b[^)]*)\)", bare(path)):
        arms[m[3].replace("::", ".")] = (m[1], split(m[2] or ""), split(m[4]))
    return arms


# ---- the lines

TRAITS = traits()


def parts():
    """What is to stand between the marks: file, mark, lines."""
    listed = [line.split("#")[0].split(":")[0].split() for line in (ROOT / "crates.txt").read_text(encoding="utf-8").splitlines()]
    crates = {}
    for crate in [words[0] for words in listed if words and "staticlib" not in words]:
        source = ROOT / "crates" / crate / "src"
        # a program has no public function
        if (source / "lib.rt").is_file():
            functions = functions_of(crate, source / "lib.rt", crate, source)
            if len({f.field() for f in functions}) != len(functions):
                stop(f"two public functions of {crate} have one name")
            if functions:
                crates[crate] = functions
    for crate in [words[0] for words in listed if "staticlib" in words]:
        exported(crate, crates)
    every = [f for functions in crates.values() for f in functions]
    for name in sorted(WITHOUT - met) + sorted(set(BY_HAND) - {f.place for f in every}):
        stop(f"tests/unique.py names {name}, and there is no such public function")

    text = (HOME / "proofs/Unique.antt").read_text(encoding="utf-8")
    # a law's name may join the names of others by dashes: h-one is the law h_one
    laws = {name.replace("-", "_"): name for name in re.findall(r"^pub ([\w'-]+) :", text, re.M)}
    cites = [f"use Rattle.{c}.proofs as {c}" for c in crates]
    # the structs that the lines name
    cites += [f"use Rattle.{f.crate}.specs.declared.{f.of}.{{{f.of}}}" for f in every if f.of and f"× {f.of}}}" in f.kind()[0]]
    title = lambda c: c.title().replace("_", "")

    says, shows = [], []
    for crate, functions in crates.items():
        says += ["", f"pub record {title(crate)} : Type {2 if any(f.bound for f in functions) else 0} where"] + [f.statement() for f in functions]
        shows += ["", f"pub {crate} : promises.{title(crate)}", f"{crate} =", "    record {"] + [f.proof(laws) for f in functions] + ["    }"]
    traits = [f"use Rattle.{f.crate}.specs.declared.{f.bound} as {f.trait()}" for f in every if f.bound]
    yield "specs/Promises.antt", "the crates", cites + list(dict.fromkeys(traits)) + [""]
    yield "specs/Promises.antt", "a record for each crate, a line for each public function", says + [""]
    yield "proofs/Promises.antt", "a line for each public function", shows + [""]

    handing = [f for f in every if f.hands_back()]
    arms = arms_of(ROOT / "crates/engine/src/lib.rt")
    of = [c for c in crates if any(f.crate == c for f in handing)]
    yield "specs/Handed.antt", "the crates", [f"use Rattle.{c}.proofs as {c}" for c in of] + [""]
    yield "specs/Handed.antt", "the functions that change the state and answer", [f.constructor() for f in handing] + [""]
    yield "proofs/Handed.antt", "their names", ["use Rattle.unique.specs.Handed.{" + ", ".join(f.field() for f in handing) + "}", ""]
    yield "proofs/Handed.antt", "the commands", [f.reached(arms) for f in handing if f.tells()]
    yield from own_calls(every, arms)
    yield from reviews_of(every)
    yield from putters_of(every)
    yield from outside(every)
    written_by_hand(every, arms)
    met.update(f.place for f in every)


# ---- what the code's own calls tell (OwnCalls), what they leave in a buffer (Buffers), and what is no call of the engine's own (Handed)

# The public functions that can change an array of the state's numbers and are no line of `Handed`, by their module, and what they are for. A crate
# cannot hide a function from the crates outside the workspace and show it to those inside.
OUTSIDE = {
    "state.stores": (
        "put_all put_user put_roles put_juniors put_assigned put_holders put_lines put_assignments put_set put_members clear_set open_session put_active close_session put_all_active",
        "each stores one part of the state as it is given, for the commands, which ask their refusals first",
    ),
    "sweeps": ("end_all strip", "passes of `end-all` and `norole` over the sessions, and over a table that is lent as a slice"),
    "policyread": ("gather", "the numbers of any file, stored without a test, for `load`, which tests them before it stores them as the state"),
}

# The one function of these that `Handed` begins with.
START = "state.stores.start"


# Any question through one function.
ASK = "engine.ask"


def lemma(name, file):
    """A lemma that is written by hand in a file of crates/unique/proofs, by its name there, which may have dashes."""
    for there in re.findall(r"^(?:pub )?([\w'-]+) :", (HOME / f"proofs/{file}.antt").read_text(encoding="utf-8"), re.M):
        if there.replace("-", "_") == name:
            return there
    stop(f"crates/unique/proofs/{file}.antt has no lemma {name}")


def call_of(f):
    return f"(c : Call {f}.Kinds.ps {f}.Kinds.r {f}.Reads.Post)"


def applied(kind, variant, numbers, given):
    """The command or question that a function is called with, of the call c."""
    arguments = " ".join(f"c.given.{place(given.index(n))}" for n in numbers)
    return f"({kind}.{variant} {arguments})" if numbers else f"{kind}.{variant}"


def own_calls(every, arms):
    """The commands: the functions that the arms of `engine::step` call."""
    tellers = {"Answer": "told", "Result<Session, Refusal>": "told_opened"}
    says, shows = [], []
    for f in [f for f in every if f.place in arms]:
        if f.result not in tellers:
            f.bad("answers as no command does")
        teller = tellers[f.result]
        variant, numbers, given = arms[f.place]
        at = place(f.types.index("&mut " + STATE))
        command = applied("commands", variant, numbers, given)
        named = f"c.given.{place(given.index('list'))}.now" if "list" in given else "[]"
        says.append(f"  pub {f.field()} : {call_of(f.place)} → Obeyed c.given.{at}.now {command} {named} ({teller} c.result c.exits.{at}.now)")
        shows.append(f"      {f.field()} = λ c h. does h {command} {named} c.met;")
    if len(says) != len(arms) or len(arms) != bare(ROOT / "crates/engine/src/lib.rt").count("Command::"):
        stop("an arm of `engine::step` does not call a public function of its own, as tests/unique.py expects")
    crates = dict.fromkeys(f.crate for f in every if f.place in arms or f.crate in ("checking", "engine", "reviews", "policyfile", "script", "program", "clibrary"))
    yield "specs/OwnCalls.antt", "the crates", [f"use Rattle.{c}.proofs as {c}" for c in crates] + [""]
    yield "specs/OwnCalls.antt", "the commands", says
    yield "proofs/OwnCalls.antt", "the commands", shows


def questions_of(path):
    """Which question of the model each review is: the arms of `engine::ask`, as (variant, its numbers, what the function is given)."""
    arms = {}
    for m in re.finditer(r"Question::(\w+)(?:\(([^)]*)\))?\s*=>\s*(?:reviews::)?(\w+)\(\s*(state\b[^)]*)\)", bare(path)):
        arms["reviews." + m[3]] = (m[1], split(m[2] or ""), split(m[4]))
    if len(arms) != bare(path).count("Question::"):
        stop("an arm of `engine::ask` does not call a function of its own, as tests/unique.py expects")
    return arms


def reviews_of(every):
    """The reviews: the functions that are lent a buffer for their results."""
    arms = questions_of(ROOT / "crates/engine/src/lib.rt")
    says, shows, tell, told = [], [], [], []
    for f in [f for f in every if f.crate == "reviews" or f.place == ASK]:
        buffers = [i for i, t in enumerate(f.types) if t == "&mut [u16]"]
        if len(buffers) != 1 or f.types[0] != "&" + STATE or f.result != "Result<usize, Refusal>":
            f.bad("is not given a state and lent one buffer for its results")
        out = place(buffers[0])
        lent = f"c.given.{out}.now c.exits.{out}.now"
        says.append(f"  pub {f.field()} : {call_of(f.place)} → Lent (number_of c.result) (given_number c.result) {lent}")
        if f.place == ASK:
            shows.append(f"      ask = λ c. {lemma('asked_any', 'Buffers')} (view c.given.0.now) c.given.1.0 c.met;")
            continue
        if f.place not in arms:
            f.bad("is a review that `engine::ask` does not call")
        question = applied("questions", *arms[f.place])
        shows.append(f"      {f.field()} = λ c. reviewed (view c.given.0.now) {question} refl c.met;")
        tell.append(f"  pub {f.field()} : {call_of(f.place)} → Tells c.given.0.now {question} {lent} c.result")
        told.append(f"      {f.field()} = λ c. {lemma('reviewed_tells', 'OwnCalls')} (demand1.asking _ _ {question}) c.met;")
    yield "specs/Buffers.antt", "the reviews", says
    yield "proofs/Buffers.antt", "the reviews", shows
    yield "specs/OwnCalls.antt", "the reviews", tell
    yield "proofs/OwnCalls.antt", "the reviews", told


# The functions that are lent a buffer of bytes and have a line of `Buffers` that is written by hand.
BUFFER_BY_HAND = {"policyfile.save", "script.answer_line", "script.turn", "program.next", "clibrary.marruskil_obey", "clibrary.marruskil_save"}


def putters_of(every):
    """The functions that put a text or a file into a buffer of bytes: from which place on, and the place past it is their result."""
    says, shows = [], []
    lent = [f for f in every if any(re.fullmatch(r"&mut \[u(8|16|32)(; \w+)?\]", t) for t in f.types)]
    for f in [f for f in lent if f.crate != "reviews" and f.place != ASK and f.place not in BUFFER_BY_HAND]:
        form = re.match(r"(Put) \w+\.old (\w+) |(Wrote) \w+\.old \w+\.new (\w+) ", f.promise)
        if not form or "&mut [u8]" not in f.types or f.result != "usize" or f.types.count("usize") != ((form[2] or form[4]) != "0"):
            stop(f"{f.place} is lent a buffer, and its promise is of a new form: write its line in crates/unique/specs/Buffers.antt, and its name in BUFFER_BY_HAND of tests/unique.py")
        at = "0" if "usize" not in f.types else f"c.given.{place(f.types.index('usize'))}"
        out = place(f.types.index("&mut [u8]"))
        says.append(f"  pub {f.field()} : {call_of(f.place)} → Around {at} c.result c.given.{out}.now c.exits.{out}.now")
        shows.append(f"      {f.field()} = λ c. {lemma('put_around' if form[1] else 'wrote_around', 'Buffers')} c.met;")
    crates = dict.fromkeys(f.crate for f in lent)
    yield "specs/Buffers.antt", "the crates", [f"use Rattle.{c}.proofs as {c}" for c in crates] + [""]
    yield "specs/Buffers.antt", "what puts a text", says
    yield "proofs/Buffers.antt", "what puts a text", shows


def written_by_hand(every, arms):
    """What is no command and changes the state and answers, is asked or saves has a line of OwnCalls; what is lent a buffer has one of Buffers."""
    asked = {"checking.check", ASK, "policyfile.save", "clibrary.marruskil_check", "clibrary.marruskil_save"}
    for file, places in (("OwnCalls", asked | {f.place for f in every if f.hands_back() and f.place not in arms}), ("Buffers", BUFFER_BY_HAND)):
        text = (HOME / f"specs/{file}.antt").read_text(encoding="utf-8")
        for f in sorted(places):
            if not re.search(rf"^  pub \w+ : .*\bCall {re.escape(f)}\.Kinds\.ps ", text, re.M):
                stop(f"crates/unique/specs/{file}.antt has no line for {f}")


def outside(every):
    """The functions that are lent an array of numbers to change and are no line of `Handed`: each is on the list, and the list has no other."""
    changing = [f.place for f in every if any(re.fullmatch(r"&mut \[u64(; \w+)?\]", t) for t in f.types)]
    left = [f for f in changing if f != START and f not in {g.place for g in every if g.hands_back()}]
    listed = [f"{module}.{name}" for module, (names, _) in OUTSIDE.items() for name in names.split()]
    for f in left:
        if f not in listed:
            stop(f"{f} can change the state, and is neither a line of Handed nor on the list of those outside (OUTSIDE in tests/unique.py)")
    for f in listed:
        if f not in left:
            stop(f"tests/unique.py says that {f} is outside Handed, and it is no public function that can change the state, or has a line")
    said = [f"`{module}` ({', '.join(names.split())}): {why}." for module, (names, why) in OUTSIDE.items()]
    yield "specs/Handed.antt", "the functions outside", ["-- " + line for text in said for line in textwrap.wrap(text, 145)]


# the public functions that were found, with or without a line
met = set()


def main():
    write = sys.argv[1:] == ["--write"]
    if sys.argv[1:] and not write:
        stop("usage: tests/unique.py [--write]")
    for kind in ("specs", "proofs"):
        declared = (HOME / kind / "Lib.antt").read_text(encoding="utf-8").splitlines()
        for file in FILES:
            if file.startswith(kind) and f"pub mod {Path(file).stem}" not in declared:
                stop(f"crates/unique/{kind}/Lib.antt does not declare {Path(file).stem}")
    texts = {file: (HOME / file).read_text(encoding="utf-8") for file in FILES}
    for file, text in texts.items():
        if "{-" in text:
            stop(f"crates/unique/{file} has a comment that is not of one line: it could hide what is written")
    for file, mark, lines in parts():
        marks = re.compile(rf"(^ *{re.escape(BEGIN + mark)}\n)(?:.*\n)*?( *{re.escape(END)}$)", re.M)
        if len(marks.findall(texts[file])) != 1:
            stop(f"crates/unique/{file} has not the mark '{BEGIN}{mark}' and, after it, '{END}'")
        texts[file] = marks.sub(lambda m: m[1] + "".join(line + "\n" for line in lines) + m[2], texts[file])
    differ = False
    for file, text in texts.items():
        there = (HOME / file).read_text(encoding="utf-8")
        if text == there:
            continue
        if write:
            (HOME / file).write_text(text, encoding="utf-8")
            print(f"unique: crates/unique/{file} written")
            continue
        differ = True
        print(f"unique: crates/unique/{file} is not what the sources say (-: is there, +: should be):")
        changes = [line for line in difflib.unified_diff(there.splitlines(), text.splitlines(), lineterm="", n=0) if not line.startswith(("---", "+++", "@@"))]
        print("\n".join(line[:160] for line in changes[:10]))
    if differ:
        stop("run tests/unique.py --write")
    print(f"unique: {len(met - WITHOUT)} public functions, one line each")


main()
