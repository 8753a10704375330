#!/usr/bin/env python3
"""Compares the pages for people with the sources that they repeat, and runs every example on them.

    tests/pages.py PROGRAM..     the command that answers a script (tests/pages.sh says which)

- docs/COMMANDS.md: its words and how many numbers each takes with crates/words/specs/ScriptWords; what each number is with crates/model/src/lib.rt;
  the refusals of the commands and of `check` with crates/demands/specs/Demand2, of the other questions with crates/model/specs/Questions; the ranges
  with crates/numbers/specs/Ranges.
- docs/ANSWERS.md: the numbers and sentences with crates/numbers/specs/Answers; which words can give each with the refusals above.
- docs/STORY.md: its lines with examples/story.script; its sentences with the comments above the statements that it names.
- Every example line of these pages, and every exercise, is run and its answer compared.
- The files that these pages and README.md name are there.
- README.md's scripts, the scripts told in examples/ (tour.txt, story.txt, leaver.txt, student.txt), and those that crates/transcripts proves something of, with
  examples/.
"""
import re
import subprocess
import sys
from pathlib import Path

ROOT = Path(__file__).resolve().parent.parent
PROGRAM = sys.argv[1:]
faults = []
compared = 0


def holds(what, so):
    """Notes a fault where something that a page says is not so."""
    global compared
    compared += 1
    if not so:
        faults.append(what)


def same(what, said, is_so):
    """Notes a fault where a page says one thing and it is another; of two lists, the first place where they differ."""
    if isinstance(said, list) and isinstance(is_so, list):
        for place, (a, b) in enumerate(zip(said, is_so), 1):
            if a != b:
                return holds(f"{what}, number {place}: the page has {a!r}, and it is {b!r}", False)
        return holds(f"{what}: the page has {len(said)}, and there are {len(is_so)}", len(said) == len(is_so))
    return holds(f"{what}: the page has {said!r}, and it is {is_so!r}", said == is_so)


def read(path):
    return (ROOT / path).read_text(encoding="utf-8")


# ---- what the program prints


def answers(lines):
    """The answer line of each line of a script."""
    script = "".join(line + "\n" for line in lines)
    done = subprocess.run(PROGRAM, input=script.encode(), stdout=subprocess.PIPE, check=True)
    printed = done.stdout.decode().split("\n")
    if len(printed) != len(lines) + 2 or not printed[-2].startswith("total "):
        sys.exit(f"pages: {PROGRAM} prints {len(printed) - 1} lines for a script of {len(lines)}")
    return printed[: len(lines)]


def answers_after(scene, lines):
    return answers(scene + lines)[len(scene) :]


def example(name):
    """The lines of a script of examples/, their answers, and the total."""
    lines = read(f"examples/{name}.script").split("\n")[:-1]
    printed = read(f"examples/{name}.expected").split("\n")[:-1]
    return lines, printed[:-1], printed[-1]


# ---- what the sources say


class Word:
    """A word of a script: how many numbers it takes and whether a list follows, what each number is, its refusals, and whether it asks."""

    def __init__(self, name, numbers, listed):
        self.name, self.numbers, self.listed = name, numbers, listed


def block(text, start, end):
    """The part of a text from the first match of one pattern up to the next match of another."""
    begin = re.search(start, text)
    if not begin:
        sys.exit(f"pages: the sources have no {start!r} any more")
    rest = text[begin.end() :]
    stop = re.search(end, rest)
    return rest[: stop.start()] if stop else rest


def variants(enum):
    """The variants of Command or Question, and the types of what each holds."""
    body = block(read("crates/model/src/lib.rt"), rf"pub enum {enum} {{", r"\n}")
    return {name: types.split(", ") for name, types in re.findall(r"(\w+)\(([^)]*)\),", body)}


def refusals_of_commands():
    """For each command and kind of set, the numbers of Demand2's list."""
    text = read("crates/demands/specs/Demand2.antt")
    rules = re.findall(r"^rule_number (\w+) = (\d+)$", read("crates/model/specs/commands/Sets.antt"), re.M)
    found = {}
    for name, line in re.findall(r"^refusals m \((\w+)[^)]*\) list =((?:.*\n)(?:    .*\n)*)", text, re.M):
        for kind, rule in rules:
            numbers = re.findall(r"(\d+) when ", line.replace("rule_number kind", rule))
            found[name, kind] = sorted(map(int, numbers))
    return found


def refusals_of_questions():
    """For each question, the numbers that it may be answered: `review` has 1, 2 and 15, and a condition that is `never` has none."""
    text = read("crates/model/specs/Questions.antt")
    shape = "1 when beyond ∷ 2 when missing ∷ 15 when ltb room (length list) ∷ []"
    holds("crates/model/specs/Questions: a review has other refusals than 1, 2 and 15", shape in text)
    check = block(read("crates/demands/specs/Demand2.antt"), r"\ncheck_refusals m .*?=", r"\n")
    own = read("crates/unique/specs/OwnCalls.antt")
    short = r"pub two_places : .*\n.*≡ 15\) ↔ \(.*× \(length c\.given\.[.0-9]*\.now < 2\)\)\n"
    holds("crates/unique/specs/OwnCalls: it does not say that `check`, asked through `ask`, is 15 with fewer than two places", re.search(short, own))
    found = {"Check": sorted(map(int, re.findall(r"(\d+) when ", check))) + [15]}
    for name, conditions in re.findall(r"^ask m room \((\w+)[^)]*\) = review m room (.*)$", text, re.M):
        beyond, missing = re.match(r"(never|\([^()]*(?:\([^()]*\)[^()]*)*\)) (never|\([^()]*(?:\([^()]*\)[^()]*)*\)) ", conditions).groups()
        found[name] = [n for n, c in ((1, beyond), (2, missing)) if c != "never"] + [15]
    return found


def words():
    """Every word, in the order of the sources."""
    table = re.findall(r'^    (word|listing) "([^"]+)" (\d+) ∷$', read("crates/words/specs/ScriptWords.antt"), re.M)
    found = {name: Word(name, int(numbers), how == "listing") for how, name, numbers in table}
    meant = re.findall(r'^    row "([^"]+)" \((Do|Ask) \((\w+)(?: (Static|Dynamic))?', read("crates/meaning/specs/Meaning.antt"), re.M)
    types = {**variants("Command"), **variants("Question")}
    commands, questions = refusals_of_commands(), refusals_of_questions()
    for name, how, variant, kind in meant:
        word = found[name]
        word.asks = how == "Ask"
        word.types = [t for t in types[variant] if t != "Kind"]
        word.refusals = questions[variant] if word.asks else commands[variant, kind or "Static"]
    same("the words and what they mean", [m[0] for m in meant], list(found))
    return found


def ranges():
    return {name: int(n) for name, n in re.findall(r"^(\w+) = (\d+)$", read("crates/numbers/specs/Ranges.antt"), re.M)}


# ---- what the pages say


def tables(text):
    """The tables of a page: for each, its rows by the names of their columns."""
    found, head = [], None
    for line in text.split("\n"):
        cells = [cell.strip() for cell in line.strip("|").split("|")] if line.startswith("|") else None
        if cells is None:
            head = None
        elif head is None:
            head = cells
            found.append([])
        elif set(line) != {"|", "-"}:
            found[-1].append(dict(zip(head, cells)))
    return found


def quoted(text):
    """What stands between back quotes."""
    return re.findall(r"`([^`]*)`", text)


def columns(line):
    """The parts of a line of text that two spaces or more keep apart."""
    return re.split(r" {2,}", line.strip())


# What an argument's name on the page says that it is.
NAMES = {"u": "User", "r": "Role", "senior": "Role", "junior": "Role", "s": "Session", "name": "SetName", "op": "u16", "obj": "u16", "n": "u16"}


def check_command_row(row, word, scene):
    """A row of docs/COMMANDS.md."""
    asks = "Question" in row
    name, *arguments = quoted(row["Question" if asks else "Command"])[0].split(" ")
    what = f"docs/COMMANDS.md, {name}"
    same(what + ", a question", asks, word.asks)
    same(what + ", a list follows", arguments[-1:] == ["r.."], word.listed)
    arguments = [argument for argument in arguments if argument != "r.."]
    same(what + ", how many numbers", len(arguments), word.numbers)
    same(what + ", what they are", [NAMES.get(argument) for argument in arguments], word.types)
    said = row["Refusals"].replace("(15)", "15") if asks else row["Refusals"]
    same(what + ", refusals", said, ", ".join(map(str, word.refusals)))
    line = quoted(row["Example"])[0]
    same(what + ", the example's word", line.split(" ")[0], name)
    same(f"{what}, `{line}`", quoted(row["Answer"]), answers_after(scene, [line]))


def check_commands(all_words, scene):
    page = read("docs/COMMANDS.md")
    shown = block(page, r"```scene\n", r"```").strip().split("\n")
    same("docs/COMMANDS.md, the scene", [line for row in shown for line in columns(row)[0].split(", ")], scene)
    things = dict(re.findall(r"an? (\w+) \(0 to (\d+)\)", page))
    same("docs/COMMANDS.md, the ranges", things, {thing: str(ranges()[thing + "s"] - 1) for thing in ("user", "role", "session", "set", "operation", "object")})
    rows = [row for table in tables(page) for row in table]
    named = [quoted(row.get("Command") or row["Question"])[0].split(" ")[0] for row in rows]
    same("docs/COMMANDS.md, the words", sorted(named), sorted(all_words))
    for name, row in zip(named, rows):
        if name in all_words:
            check_command_row(row, all_words[name], scene)


def words_named(cell, all_words):
    """The words that a cell names: a list, or every one, or every one but a few."""
    listed = quoted(cell)
    if cell.startswith("every question"):
        return [w.name for w in all_words.values() if w.asks and w.name not in listed]
    if cell.startswith("every word"):
        return [name for name in all_words if name not in listed]
    return listed


def check_answer_row(row, sentence, all_words, scene):
    """A row of docs/ANSWERS.md."""
    number = int(row["No."])
    what = f"docs/ANSWERS.md, {number}"
    same(what + ", given when", row["Given exactly when"], sentence)
    give = [w.name for w in all_words.values() if number in (0, 14) or number in w.refusals]
    same(what + ", which words", sorted(words_named(row["Which words can give it"], all_words)), sorted(give))
    holds(what + ": a number that a script can print has an example, and no other", (row["Example"] != "none") == (number != 15))
    if row["Example"] == "none":
        return
    line = quoted(row["Example"])[0]
    times = re.search(r"the (\d+)th time", row["Example"])
    printed = answers_after(scene, [line] * (int(times[1]) if times else 1))
    same(f"{what}, `{line}`", quoted(row["Answer"])[0], printed[-1])
    same(f"{what}, `{line}`, its number", number, int(printed[-1].split(" ")[0]))
    if times:
        holds(f"{what}, `{line}`: it is refused before that time", all(answer.startswith("0") for answer in printed[:-1]))


def check_answers(all_words, scene):
    page = read("docs/ANSWERS.md")
    text = read("crates/numbers/specs/Answers.antt")
    sheet = re.findall(r"^number_of \(Ok _\) = (\d+)  -- (.*)$", text, re.M) + re.findall(r"^refusal_number \w+ = (\d+)  -- (.*)$", text, re.M)
    (rows,) = tables(page)
    same("docs/ANSWERS.md, the numbers", [row["No."] for row in rows], [number for number, _ in sheet])
    for row, (_, sentence) in zip(rows, sheet):
        check_answer_row(row, sentence, all_words, scene)
    most = ranges()
    limits = f"{most['sessions']} sessions, {most['most_lines']} lines, {most['most_grants']:,} grants and {most['most_assignments']:,} assignments"
    holds(f"docs/ANSWERS.md, 12: the limits are {limits}", limits in page)
    rules = re.findall(r"(\d+) when ", block(read("crates/policyform/specs/Rules.antt"), r"\nrules_broken m =", r"\[\]"))
    loading = re.search(r"is answered 0, or ([\d, or]*) for what is wrong in the file", page)
    same("docs/ANSWERS.md, loading", re.findall(r"\d+", loading[1]), ["14"] + rules)


def comments_above(name, path):
    """The comments right above each place of a file that states or defines a name, each as one line."""
    found, above = [], ""
    for line in read(f"crates/{path}.antt").split("\n"):
        text = line.strip()
        if text.startswith("-- "):
            above += text[2:]
            continue
        if re.match(rf"(abbrev |unfoldable )?pub (record |data )?{re.escape(name)} ", text):
            found.append(above)
        above = ""
    return found


def check_citations(path):
    """Every `name` in `file` of a page is there."""
    for name, file in re.findall(r"`([^` ]*)` in `([^` ]*/specs/[^` ]*)`", read(path)):
        holds(f"{path}: {file} has no {name}", comments_above(name, file))


def check_files(path):
    """Every file of examples/ that a page names, and every file that it links to, is there."""
    page = read(path)
    linked = [(ROOT / path).parent / link for link in re.findall(r"\]\(([^)#:]+)", page)]
    for file in [ROOT / name for name in re.findall(r"\bexamples/[\w.-]*\w", page)] + linked:
        holds(f"{path}: there is no {file.relative_to(ROOT)}", file.exists())


def check_day(rows):
    """The lines that matter: as the story has them, in their order, and each sentence above its statement."""
    lines, printed, _ = example("story")
    told = iter(zip(lines, printed))
    for row in rows:
        line, answer = quoted(row["Line here"])[0], quoted(row["Answer"])[0]
        holds(f"docs/STORY.md: `{line}` is not answered {answer} in the story, after the line above", (line, answer) in told)
        name, file = quoted(row["Its statement"])
        above = comments_above(name, file)
        holds(f"docs/STORY.md: its sentence does not stand above {name} in {file}", any(row["The sentence"].strip('"') in text for text in above))


def check_story():
    page = read("docs/STORY.md")
    day, solutions = tables(page)
    check_day(day)
    first = int(re.search(r"the first (\d+) lines of the story", page)[1])
    same("docs/STORY.md, the command's lines", re.search(r"head -n (\d+) ", page)[1], str(first))
    scene = example("story")[0][:first]
    exercises = re.findall(r"^(\d+)\. (.*)$", block(page, r"## Exercises\n", r"\n## "), re.M)
    same("docs/STORY.md, exercises with answers", [number for number, _ in exercises], [row["No."] for row in solutions])
    for (number, text), row in zip(exercises, solutions):
        same(f"docs/STORY.md, exercise {number}", quoted(row["Answers"]), answers_after(scene, quoted(text)))


# ---- README and examples/


def check_readme():
    page = block(read("README.md"), r"## A first script\n", r"\n## ")
    lines, printed, total = example("first")
    shown = [columns(line) for line in page.split("\n") if line.startswith("    ")]
    same("README.md, the first script", [row[0] for row in shown], lines)
    same("README.md, its answers", [row[1] for row in shown], printed)
    same("README.md, its total", re.search(r"`(total [^`]*)`", page)[1], total)
    holds("README.md does not name examples/first.script", "`examples/first.script`" in page)


def check_shown(heading, name):
    """The lines of README.md that matter, as the script has them, in their order."""
    page = block(read("README.md"), rf"## {heading}\n", r"\n## ")
    lines, printed, _ = example(name)
    told = iter(zip(lines, printed))
    shown = [columns(line) for line in page.split("\n") if line.startswith("    ")]
    holds(f"README.md shows no line of examples/{name}.script", shown)
    for row in shown:
        holds(f"README.md: `{row[0]}` is not answered {row[1]} in examples/{name}.script, after the line above", tuple(row[:2]) in told)
    holds(f"README.md does not name examples/{name}.script", f"`examples/{name}.script`" in page)


def check_told(name):
    """A script that is told line by line: the line, its answer, what it means."""
    lines, printed, total = example(name)
    shown = [columns(line) for line in read(f"examples/{name}.txt").split("\n")[2:] if line]
    same(f"examples/{name}.txt, the lines", [row[0] for row in shown[:-1]], lines)
    same(f"examples/{name}.txt, the answers", [row[1] for row in shown[:-1]], printed)
    same(f"examples/{name}.txt, the total", shown[-1], [total])


def check_tour():
    """Every line of the tour is shown, or is the same as the one shown before it."""
    lines, printed, total = example("tour")
    text = read("examples/tour.txt")
    before = 0
    for number, line, answer in re.findall(r"^ *(\d+)  (.*?) {3,}(\S.*)$", text, re.M):
        at = int(number)
        same(f"examples/tour.txt, line {at}", ["" if line == "(empty)" else line, answer], [lines[at - 1], printed[at - 1]])
        holds(f"examples/tour.txt: another line is left out before line {at}", set(lines[before : at - 1]) <= {lines[before - 1]})
        before = at
    same("examples/tour.txt, its last line", before, len(lines))
    same("examples/tour.txt, the total", text.split("\n")[-2].strip(), total)


def check_proved(path, name, script):
    """The rows of which crates/transcripts proves what is printed are the script's."""
    rows = re.findall(r'"([^"]*)" ⇒ "([^"]*)"', block(read(path), rf"\n{name} =", r"\n    \[\]"))
    lines, printed, _ = example(script)
    same(f"{path}, {name}", rows, list(zip(lines, printed)))


def main():
    all_words = words()
    scene = example("scene")[0]
    check_commands(all_words, scene)
    check_answers(all_words, scene)
    check_story()
    for page in "README.md", "docs/COMMANDS.md", "docs/ANSWERS.md", "docs/STORY.md":
        check_citations(page)
        check_files(page)
    check_readme()
    check_shown("A student leaves", "leaver")
    check_shown("Two senior roles", "student")
    check_told("story")
    check_told("leaver")
    check_told("student")
    check_tour()
    check_proved("crates/transcripts/specs/Story.antt", "story", "story")
    check_proved("crates/transcripts/specs/Leaver.antt", "leaver", "leaver")
    check_proved("crates/transcripts/specs/Student.antt", "student", "student")
    check_proved("crates/transcripts/specs/Program.antt", "example", "paper")
    for fault in faults:
        print("pages: " + fault)
    if faults:
        sys.exit(1)
    print(f"pages: {compared} comparisons, all alike")


main()
