"""All specs and all code of the repository, and the meanings of their words.

A word means a definition of ours, a type of our code, or a word of the kit. What is reached from a clause is each
definition and each type that its words mean, and so on from these. A type leads on by its fields and its ghost members;
where contracts see another value in its place (`impl Model`), by that value alone; and a trait by the clauses of its
methods, which say what each does.
"""

import re
from collections.abc import Mapping, Sequence
from dataclasses import dataclass, replace
from pathlib import Path

from rattle import antt
from rattle.code import blanked
from rattle.crates import crates_of
from statement import source as rust, words

# Words of the language itself: they are explained at the head of the statement.
LANGUAGE = {"Unit", "tt", "⊥", "absurd", "×", "¬"}
# The words that find a proof.
TACTICS = {"omega", "cc", "grind", "search", "simp", "rw", "assumption", "hlevel"}
# The names that every file of code has without an import.
ALWAYS = {"Some", "None", "Ok", "Err", "Option", "Result"}


@dataclass(frozen=True)
class KitWord:
    """A word of the kit: the crate of the kit that has it, and its name."""

    crate: str
    name: str

    @property
    def label(self) -> str:
        """Return its crate and its name."""
        return f"{self.crate}.{self.name}"


# A possible meaning of a word, and words with their meanings.
Item = antt.Definition | rust.Type | KitWord
Links = dict[str, Item]


class Unknown(Exception):
    """A word without an import."""


class World:
    """The repository below a folder."""

    def __init__(self, root: str | Path) -> None:
        self.root = Path(root)
        # The crates, the lowest first.
        self.crates = [*crates_of(self.root)]
        self.specs: dict[str, antt.Specs] = {}
        self.code: dict[str, rust.Code] = {}
        self.known: dict[Item, Links] = {}
        self.parts: dict[tuple[antt.Definition, str], antt.Definition | None] = {}
        for crate in self.crates:
            self.load(crate)

    def load(self, crate: str) -> None:
        """Read the files of a crate."""
        for path in sorted((self.root / "crates" / crate / "specs").rglob("*.antt")):
            steps = path.relative_to(self.root / "crates").with_suffix("").parts
            module = "Rattle." + ".".join(steps)
            self.specs[module] = antt.read(module, str(path.relative_to(self.root)), path.read_text())
        for path in sorted((self.root / "crates" / crate / "src").rglob("*.rt")):
            name = str(path.relative_to(self.root))
            self.code[name] = rust.read(crate, name, path.read_text())

    def type_of(self, crate: str, name: str, path: Sequence[str] = ()) -> rust.Type:
        """Return the type of this name that a crate has or passes on: that of the named file, if there are several."""
        files = [code for code in self.code.values() if code.crate == crate]
        found = [code.types[name] for code in files if name in code.types]
        exact = [kind for kind in found if Path(kind.path).with_suffix("").parts[3:] == tuple(path)]
        if exact or found:
            return (exact or found)[0]
        passed = [code.used[name] for code in files if code.used.get(name, (crate,))[0] != crate]
        if not passed or passed[0][0] not in self.crates:
            raise Unknown(f"{crate} has no type {name}")
        return self.type_of(*passed[0])

    def law(self, path: str, name: str) -> list[tuple[rust.Function, rust.Clause]]:
        """Return the clauses of the functions of this name in a file of code, with their functions."""
        laws = [function for function in self.code[path].functions if function.name == name]
        return [(law, clause) for law in laws for clause in law.clauses]

    def stated(self, path: str, name: str) -> Item:
        """Return the meaning of a name of a file of specs or proofs."""
        module = path.removeprefix("crates/").removesuffix(".antt").replace("/", ".")
        return self.target(f"Rattle.{module}", name)

    def target(self, module: str, name: str) -> Item:
        """Return the meaning of a name of a module."""
        _, crate, *rest = module.split(".")
        if crate not in self.crates:
            return KitWord(crate, name)
        if "declared" in rest:
            steps = [step for step in rest[rest.index("declared") + 1 :] if not step.startswith("The")]
            return self.type_of(crate, steps[-1], steps[:-1])
        specs = self.specs.get(module) or self.proofs(module)
        if specs is None:
            # The constructors of a `data` are in a module of its name.
            above, _, last = module.rpartition(".")
            return self.target(above, last)
        if name in specs.definitions:
            return specs.definitions[name]
        if name in specs.constructors:
            return specs.constructors[name]
        if name in specs.passed:
            return self.target(*specs.brought[name])
        raise Unknown(f"{module} has no definition {name}")

    def proofs(self, module: str) -> antt.Specs | None:
        """Return a file of proofs, if this is one: only those of evidence and their imports are read."""
        path = Path(self.root, "crates", *module.split(".")[1:]).with_suffix(".antt")
        if ".proofs." in module and path.is_file():
            self.specs[module] = antt.read(module, str(path.relative_to(self.root)), path.read_text())
        return self.specs.get(module)

    def item_of(self, brought: Mapping[str, antt.Name], aliases: Mapping[str, str],
                own: Mapping[str, antt.Definition], head: str, path: Sequence[str]) -> Item | None:
        """Return the meaning of a word with these imports, or nothing."""
        if head in own:
            return own[head]
        if head in brought:
            return self.target(*brought[head])
        if head in aliases and path:
            return self.target(aliases[head], path[0])
        for name in [*brought, *own]:
            if "◌" in name and head in name.split("◌"):
                return own[name] if name in own else self.target(*brought[name])
        return None

    def is_constructor(self, specs: antt.Specs, token: str) -> bool:
        """Return whether a name in a pattern is a constructor; otherwise it is a variable."""
        head = token.split(".")[0]
        brought = specs.brought.get(head)
        if head in specs.constructors or token in words.KIT_CONSTRUCTORS or ("." in token and head in specs.aliases):
            return True
        if brought is None:
            return False
        if "TheVariants" in brought.module or brought.name in words.KIT_CONSTRUCTORS:
            return True
        owner = self.specs.get(brought.module)
        return brought.module.startswith("Rattle.rs_") and (owner is None or brought.name in owner.constructors)

    def links(self, item: Item) -> Links:
        """Return the meanings of the words of a definition or a type, by the word, in the order of its text."""
        if item not in self.known:
            found: list[tuple[str, Item]] = []
            if isinstance(item, rust.Type):
                found = self.links_of_type(item)
            elif isinstance(item, antt.Definition):
                found = self.links_of_definition(item)
            self.known[item] = {word: meaning for word, meaning in found if meaning is not item}
        return self.known[item]

    def uses(self, item: Item) -> list[Item]:
        """Return the direct reach of a definition or a type."""
        return [*dict.fromkeys(self.links(item).values())]

    def links_of_definition(self, item: antt.Definition) -> list[tuple[str, Item]]:
        """Return the meanings of the words of a definition, with the words."""
        specs, found = self.specs[item.module], list[tuple[str, Item]]()
        own = {**specs.constructors, **specs.definitions}
        for head, path in words.words_of(item, lambda token: self.is_constructor(specs, token)):
            meaning = self.item_of(specs.brought, specs.aliases, own, head, path)
            if meaning is None and head not in LANGUAGE | TACTICS:
                raise Unknown(f"{item.path}:{item.line}: {item.name} uses {head}, which nothing brings in")
            if meaning is not None:
                is_alias = head in specs.aliases and head not in own
                found.append((".".join([head, *path[:1]]) if is_alias else head, meaning))
        return found

    def links_of_type(self, item: rust.Type) -> list[tuple[str, Item]]:
        """Return the meanings of the words of a type that contracts see, with the words."""
        local = {*re.findall(r"\b([a-z_]\w*):", item.text), "self", "Self", item.name}
        found = [] if item.value else self.rust_types(item.path, blanked(item.text))
        for text in [item.value] if item.value else [ghost for _, ghost in item.ghosts]:
            found += self.ghost_words(item.path, item.brought, {}, local, text)
        if item.kind == "trait":
            for method in self.code[item.path].functions:
                for clause in method.clauses if method.owner == item.name else []:
                    found += self.links_of_clause(method, clause).items()
        return found

    def rust_types(self, path: str, text: str) -> list[tuple[str, Item]]:
        """Return the types of our code that a text of code names."""
        names = rust.WORD.findall(rust.VARIANT.sub("", text))
        found = [(name, self.rust_word(self.code[path], {}, name, [])) for name in names]
        return [(name, item) for name, item in found if isinstance(item, rust.Type)]

    def ghost_words(self, path: str, brought: Mapping[str, antt.Name], bounds: Mapping[str, str], local: set[str],
                    text: str) -> list[tuple[str, Item]]:
        """Return the meanings of the words of a clause, or of a ghost member."""
        code, found = self.code[path], list[tuple[str, Item]]()
        walk = words.Walk(local)
        walk.expression(words.tokens_of(text.splitlines()))
        for head, steps in walk.words:
            meaning = self.item_of({**code.brought, **brought}, code.aliases, {}, head, steps)
            meaning = meaning or self.rust_word(code, bounds, head, steps)
            if meaning is None and head not in LANGUAGE and head != "Self" and not re.match(r"[A-Z]$", head):
                raise Unknown(f"{path}: a clause uses {head}, which nothing brings in")
            if meaning is not None:
                found.append((head, meaning))
        return found

    def rust_word(self, code: rust.Code, bounds: Mapping[str, str], head: str, steps: list[str]) -> Item | None:
        """Return a type of the code by its name, or the trait of a type parameter whose members a clause names."""
        name = bounds.get(head, head)
        crate, other = (code.crate, name) if name in code.types else code.used.get(name, ("", ""))
        if crate in self.crates:
            return self.type_of(crate, other)
        if name in ALWAYS:
            return KitWord("std", name)
        return KitWord(crate, other if head == name else ".".join([other, *steps[:1]])) if crate else None

    def links_of_clause(self, function: rust.Function, clause: rust.Clause) -> Links:
        """Return the meanings of the words of a clause and of its signature."""
        found = self.ghost_words(function.path, function.brought, function.bounds, function.local, clause.inner)
        links = dict([*found, *self.rust_types(function.path, function.signature)])
        return links | ({clause.part.name: clause.part} if clause.part else {})

    def part_of(self, function: rust.Function, clause: rust.Clause, name: str) -> rust.Clause | None:
        """Return the clause with only a field of its record, `IsMade.ready`; nothing where it has none."""
        record, _, field = name.partition(".")
        definition = self.links_of_clause(function, clause).get(record)
        is_said = clause.inner.split()[:1] == [record]
        if not is_said or not isinstance(definition, antt.Definition) or definition.kind != "record":
            return None
        part = self.parts.setdefault((definition, field), words.with_field(definition, field))
        return replace(clause, part=part) if part else None

    def function(self, crate: str, label: str) -> rust.Function:
        """Return the function of a crate by its name, `Type::name` or `name`."""
        owner, _, name = label.rpartition("::")
        functions = [function for code in self.code.values() if code.crate == crate for function in code.functions]
        found = [function for function in functions if (function.owner, function.name) == (owner, name)]
        if len(found) != 1:
            raise Unknown(f"{crate} has {len(found)} functions {label}")
        return found[0]
