"""What the crates' files have, for tools/book.py: the crates in order, the definitions of specs/, the types that the code
declares, and the contracts of public functions and types.
"""
import re
from dataclasses import dataclass, field
from pathlib import Path

TOP = Path(__file__).resolve().parent.parent
WORD = re.compile(r"[^\W\d][\w'-]*")
DEFINITION = re.compile(r"^(?:abbrev |unfoldable |opaque )?pub (?:record |data )?([^\s:(]+)")
CONSTRUCTOR = re.compile(r"^  (?:pub )?([^\s:]+) :")
IMPORT = re.compile(r"use Rattle\.(\w+)\.specs\.([\w.]+)\.\{([^}]*)\}")
MODULE_IMPORT = re.compile(r"use Rattle\.(\w+)\.specs\.([\w.]+?) as (\w+)")
# A type that is declared in code: specs name it by its module, its variants by `TheVariants`, and its declaration, with the
# variants in order, by `the_type` of `contracts`.
DECLARED = re.compile(r"^(?:declared|contracts)\.(?:[a-z]\w*\.)*(\w+)(?:\.TheVariants)?$")
TYPE = re.compile(r"(?:pub(?:\(\w+\))? )?(?:struct|enum|trait) (\w+)")
# What an impl has to say besides its meaning: what is true of its private fields, and proofs that a law holds.
NOT_MEANT = {"invariant", "laws", "total", "matches_partial_cmp", "matches_eq", "respects_eq"}


@dataclass
class Definition:
    crate: str
    file: str
    name: str
    comment: list
    lines: list
    uses: list = field(default_factory=list)
    # The lines at the head of the module with parameters that it stands in, if it stands in one.
    module: tuple = ()

    def key(self):
        return (self.crate, self.file, self.name)


@dataclass
class Contract:
    crate: str
    title: str
    text: list
    names: set
    imports: dict
    is_model: bool = False


@dataclass
class DeclaredType:
    """A struct or an enum as the code declares it."""

    crate: str
    name: str
    text: list
    imports: dict
    has_model: bool

    def key(self):
        return (self.crate, self.name)


def crates_in_order():
    """The crates of crates.txt, each after those that it stands on."""
    stands_on = {}
    for line in (TOP / "crates.txt").read_text().splitlines():
        line = line.split("#")[0].strip()
        if line:
            name, _, rest = line.partition(":")
            stands_on[name.split()[0]] = rest.split()
    order = []

    def put(name):
        if name in stands_on and name not in order:
            for other in sorted(stands_on[name]):
                put(other)
            order.append(name)

    for name in sorted(stands_on):
        put(name)
    return order


def imports_of(text):
    """The words that a text brings in from specs, each with its crate and file."""
    found = {}
    for crate, file, names in IMPORT.findall(text):
        for name in names.split(","):
            name, _, other = name.strip().partition(" as ")
            found[(other or name).strip()] = (crate, file, name.strip())
    for crate, file, alias in MODULE_IMPORT.findall(text):
        found[alias + "."] = (crate, file, None)
    return found


def definitions_of(crate):
    """The definitions of a crate's specs, by file and word; a constructor leads to its type."""
    found = {}
    specs = TOP / "crates" / crate / "specs"
    for path in sorted(specs.glob("**/*.antt")):
        file = ".".join(path.relative_to(specs).with_suffix("").parts)
        text = path.read_text()
        imports = imports_of(text)
        comment, current, within, module = [], None, "", ()
        for line in text.splitlines():
            # The definitions of a module with parameters stand two columns in, behind its head.
            within = "  " if line.startswith("module ") else within if line[:2] in ("", "  ") else ""
            if line.startswith("module "):
                module = (line,)
                continue
            if within and module and not module[-1].endswith(" where"):
                module += (line,)
                continue
            module = module if within else ()
            line = line.removeprefix(within)
            if line.startswith("--"):
                comment.append(line)
                current = None
            elif not line.strip():
                comment, current = [], None
            elif line.startswith(("use ", "pub mod ")):
                current = None
            elif current is not None:
                current.lines.append(line)
            else:
                match = DEFINITION.match(line)
                name = match.group(1) if match else line.split()[0]
                current = Definition(crate, file, name, comment, [line], module=module)
                found[(file, name)] = current
                comment = []
        for (other, _), definition in list(found.items()):
            if other != file:
                continue
            definition.uses = imports
            if " data " in " " + definition.lines[0]:
                for line in definition.lines[1:]:
                    match = CONSTRUCTOR.match(line)
                    if match:
                        found.setdefault((file, match.group(1)), definition)
    return found


def types_named(path, crate):
    """The words of a source file that can be types of this repository, as imports of specs are given."""
    text = path.read_text()
    found = {name: crate for name in re.findall(rf"^{TYPE.pattern}", text, re.M)}
    for root, names in re.findall(r"^\s*(?:pub )?use (crate|super|pb_\w+)::([^;]+);", text, re.M):
        for name in re.findall(r"\b[A-Z]\w*[a-z]\w*", names):
            found[name] = root if root.startswith("pb_") else crate
    return {name: (home, f"declared.{name}", name) for name, home in found.items()}


def declared_in(crate):
    """The structs and enums of a crate by name, and which of them have a model."""
    found = {}
    source = TOP / "crates" / crate / "src"
    text = "".join(path.read_text() for path in source.glob("**/*.rt"))
    models = set(re.findall(r"\bModel for (\w+)", text))
    for path in sorted(source.glob("**/*.rt")):
        for comment, lines in items_of(path.read_text()):
            match = TYPE.match(lines[0])
            if match:
                comment = [line for line in comment if not line.startswith("#[")]
                found[match.group(1)] = DeclaredType(
                    crate, match.group(1), comment + lines, types_named(path, crate), match.group(1) in models
                )
    return found


def public_names(root):
    """The public modules of a crate's root, and what it re-exports; a program's modules all count."""
    text = root.read_text()
    if root.name == "main.rt":
        return set(re.findall(r"^(?:pub )?mod (\w+);", text, re.M)) - {"tests"}, set()
    names = set()
    for group in re.findall(r"^pub use ([^;]+);", text, re.M):
        names |= set(re.findall(r"\w+", group.split("::", 1)[-1]))
    return set(re.findall(r"^pub mod (\w+);", text, re.M)), names


def items_of(text):
    """The items of a source file that start at its margin, each with its comment, as lists of lines."""
    lines, items, comment, i = text.splitlines(), [], [], 0
    while i < len(lines):
        line = lines[i]
        if line.startswith("///") or line.startswith("#["):
            comment.append(line)
        elif line and not line[0].isspace() and line[0] not in "}/)":
            start = i
            if not line.rstrip().endswith((";", "{}")):
                while i + 1 < len(lines) and not re.match(r"\}|\{\}|[^\s].*;$", lines[i]):
                    i += 1
            items.append((comment, lines[start : i + 1]))
            comment = []
        elif not line.strip():
            comment = []
        i += 1
    return items


def head_and_clauses(lines):
    """A function's lines up to its body, which begins at the function's own margin where it has clauses."""
    margin = len(lines[0]) - len(lines[0].lstrip())
    head = []
    for line in lines:
        if line.strip() in ("{", "{}") and len(line) - len(line.lstrip()) == margin:
            return head
        head.append(line)
        if is_balanced(head) and line.rstrip().endswith(";"):
            return head
    if not has_clause(lines):
        return [re.sub(r"\s*\{\}?$", "", lines[0])]
    raise ValueError(f"no end of the contract that begins with {lines[0].strip()}")


def is_balanced(lines):
    text = "\n".join(lines)
    return text.count("{") == text.count("}")


def has_clause(lines):
    return any(re.match(r"\s*(requires|ensures)\b", line) for line in lines)


def ends_member(lines, margin):
    """Whether a function ends here: its body closes, or it has none."""
    return re.match(r" {%d}(\}|\{\})$" % margin, lines[-1]) or is_balanced(lines) and lines[-1].endswith(";")


def members_of(lines):
    """The functions and ghost items of an impl or a trait, each with its comment."""
    members, comment, i = [], [], 1
    while i < len(lines):
        line = lines[i].strip()
        if line.startswith("///") or line.startswith("#["):
            comment.append(lines[i])
        elif re.match(r"(pub(\(\w+\))? )?(const )?fn ", line):
            indent = len(lines[i]) - len(lines[i].lstrip())
            start = i
            if not line.endswith((";", "{}")) or has_clause([line]):
                while i + 1 < len(lines) and not ends_member(lines[start : i + 1], indent):
                    i += 1
            members.append(("fn", comment, lines[start : i + 1]))
            comment = []
        elif re.match(r"ghost \w+ = ", line):
            start = i
            while "".join(lines[start : i + 1]).count("{") > "".join(lines[start : i + 1]).count("}"):
                i += 1
            members.append(("ghost", comment, lines[start : i + 1]))
            comment = []
        elif not line:
            comment = []
        i += 1
    return members


def subject_of(header):
    """The type that an impl is for, and the trait, if any."""
    header = re.sub(r"^impl(<[^{]*?>)?\s+(?=[A-Z(&])", "", header.rstrip("{ "))
    trait, _, rest = header.rpartition(" for ")
    return re.match(r"&?\s*(?:mut )?(\w+)", rest or header).group(1), trait


def contracts_of(crate):
    """What a crate's public functions promise, and what contracts see of its public types."""
    source = TOP / "crates" / crate / "src"
    root = source / ("main.rt" if (source / "main.rt").exists() else "lib.rt")
    modules, exported = public_names(root)
    files = [p for p in sorted(source.glob("**/*.rt")) if "tests" not in p.relative_to(source).parts and p.stem != "tests"]
    parsed = {path: items_of(path.read_text()) for path in files}

    def is_public(path, name):
        return path.relative_to(source).parts[0].removesuffix(".rt") in modules or name in exported

    types = set()
    for path, items in parsed.items():
        for _, lines in items:
            match = re.match(r"pub (?:struct|enum|trait) (\w+)", lines[0])
            if match and is_public(path, match.group(1)):
                types.add(match.group(1))
    found = []
    for path, items in parsed.items():
        imports = types_named(path, crate) | imports_of(path.read_text())

        def put(title, comment, lines, is_model=False):
            names = set(WORD.findall("\n".join(lines)))
            found.append(Contract(crate, title, comment + lines, names, imports, is_model))

        for comment, lines in items:
            match = re.match(r"pub (?:const )?fn (\w+)", lines[0])
            if match and is_public(path, match.group(1)) and has_clause(lines):
                put(match.group(1), comment, head_and_clauses(lines))
            match = re.match(r"pub trait (\w+)", lines[0])
            if match and match.group(1) in types:
                for kind, note, member in members_of(lines):
                    if kind == "ghost" or has_clause(member):
                        put(match.group(1), note, head_and_clauses(member) if kind == "fn" else member)
            if lines[0].startswith("impl"):
                subject, trait = subject_of(lines[0])
                if subject not in types:
                    continue
                for kind, note, member in members_of(lines):
                    if kind == "ghost":
                        name = re.match(r"\s*ghost (\w+)", member[0]).group(1)
                        if name not in NOT_MEANT:
                            put(subject, note, member, trait == "Model")
                    elif has_clause(member) and (trait or member[0].strip().startswith("pub ")) and "pub(" not in member[0]:
                        put(subject, note, head_and_clauses(member))
    return found
