"""What every kind of step of the shared desk has to say, which tools/book.py --check looks up in the code.

A step lets its clerk know what its impl says, so a word of a public contract such as `found` is worth what all
impls together say of it. They have to be of the forms below, in which every step says the rule of the steps first:
then a proof refuses a step that tells more. A step of another form is a fault. So is one that the table of steps in
docs/desk.md doesn't list with its operation and its word, and one that it lists and the code lacks.
"""
import re
from pathlib import Path

TOP = Path(__file__).resolve().parent.parent
SOURCE = TOP / "crates" / "pb_shared" / "src"
# The one file in which the steps of the shared desk stand, and the page that lists them.
STEPS = SOURCE / "desk_rule.rt"
PAGE = TOP / "docs" / "desk.md"
# By trait and ghost item: what stands there, in one line.
FORMS = {
    ("TableRule", "holds"): r"DeskRule",
    ("TableRule", "first"): r"stock",
    ("Play", "then"): r"λ s m word after\. StepRule s m\.0\.sheet word after\.0\.sheet × \w+ m word after",
    ("Split", "left"): r"λ v\. knowing v (v|\(\w+ v\))",
    ("Split", "right"): r"λ v\. knowing v (v|\(\w+ v\))",
    ("Join", "both"): r"λ v w\. knowing v \(\w+ v w\)",
    ("Join", "spent"): r"nobody",
}
# The crates with tables: the shared desk, whose steps are looked up here, and the workers' claims.
RULED = {"pb_shared", "pb_price"}
# Where the words of these forms come from.
WORDS = {"DeskRule": "Rule", "StepRule": "Steps", "knowing": "Steps"}
TRAIT = re.compile(r"\b(TableRule|Play|Split|Join)\b")
USE = re.compile(r"^use atomic_table::\{\w+(?:, \w+)*\};$", re.M)
IMPL = re.compile(r"^impl (\w+)<([^{}]*)> for (\w+) \{\n(.*?)^\}", re.M | re.S)
ITEM = re.compile(r"^    ghost (\w+) =\s*\{(.*?)\};$", re.M | re.S)
# A call that makes a step, and one whose kind and word can be read.
OPERATION = r"\.\s*(load\w*|store|swap\w*|fetch_\w+|compare_exchange\w*|split_seat|join_seat)\b"
CALL = re.compile(OPERATION + r"::<(\w+)>\([^()]*?(?:, |\()?(?:(LOCK|FRONT)\b[^()]*)?\)")


def code_of(path):
    return re.sub(r"//.*", "", path.read_text())


def steps_of(text):
    """Each impl of a text: its trait, its type, and its items, each in one line."""
    for trait, _, kind, body in IMPL.findall(text):
        yield trait, kind, {name: " ".join(said.split()) for name, said in ITEM.findall(body)}


def made(text):
    """The steps that a text makes: each with its kind, its operation, and its word, if it names one."""
    return {(kind, operation, word) for operation, kind, word in CALL.findall(text)}


def listed():
    """The steps that the page lists, by the first two columns of its table of steps."""
    rows = PAGE.read_text().split("| Step |", 1)[-1].split("\n\n", 1)[0].splitlines()[2:]
    names = [[re.findall(r"`(\w+)`", column) for column in row.split("|")[1:3]] for row in rows]
    return {(step[0], *(operation + [""])[:2]) for step, operation in names}


def form_faults(text):
    """What is wrong with the impls of the steps, a line each."""
    wrong = []
    for word, file in WORDS.items():
        uses = [use for use in re.findall(r"\buse\b[^;]*;", text) if re.search(rf"\b{word}\b", use)]
        if len(uses) != 1 or " as " in uses[0] or f"use Rattle.pb_shared.specs.{file}.{{" not in uses[0]:
            wrong.append(f"{STEPS.name}: `{word}` is not the one of pb_shared's {file}")
    for trait, kind, items in steps_of(text):
        for name in sorted({item for of, item in FORMS if of == trait} | set(items)):
            form = FORMS.get((trait, name))
            if form is None or not re.fullmatch(form, items.get(name, "")):
                wrong.append(f"{STEPS.name}: the step {kind} has {name} = {items.get(name)}, which is not of its form")
    if TRAIT.search(IMPL.sub("", USE.sub("", text))) or "/*" in text:
        wrong.append(f"{STEPS.name}: a trait of steps is named outside an impl that can be read here")
    if sum(trait == "TableRule" for trait, _, _ in steps_of(text)) != 1:
        wrong.append(f"{STEPS.name}: a table has one rule")
    return wrong


def faults():
    """What is wrong with the steps of the shared desk, a line each."""
    wrong, steps = form_faults(code_of(STEPS)), set()
    users = re.findall(r"^(\w+).*:.*\batomic_table\b", (TOP / "crates.txt").read_text(), re.M)
    wrong += [f"{crate} has steps on a table, and no rule for them is known" for crate in sorted(set(users) - RULED)]
    for path in sorted(SOURCE.glob("**/*.rt")):
        code, name = code_of(path), path.relative_to(TOP)
        if path != STEPS and TRAIT.search(code):
            wrong.append(f"{name}: a trait of steps is named outside {STEPS.name}")
        if len(CALL.findall(code)) != len(re.findall(OPERATION, code)):
            wrong.append(f"{name}: a step whose kind or word can't be read")
        steps |= made(code)
    known = {kind for trait, kind, _ in steps_of(code_of(STEPS)) if trait != "TableRule"}
    kinds = {kind for kind, _, _ in steps}
    wrong += [f"{STEPS.name} has no step {kind}" for kind in sorted(kinds - known)]
    wrong += [f"no call makes the step {kind}" for kind in sorted(known - kinds)]
    wrong += [f"docs/{PAGE.name} doesn't list the step {' '.join(step)}" for step in sorted(steps - listed())]
    wrong += [f"docs/{PAGE.name} lists a step {' '.join(step)}: no call makes it" for step in sorted(listed() - steps)]
    return wrong


def text_of_steps():
    """The steps as the code has them."""
    return "\n\n".join(f"{trait} {kind}\n" + "\n".join(f"    {name} = {said}" for name, said in items.items())
                       for trait, kind, items in steps_of(code_of(STEPS)))
