"""Finds who calls each public function of the crates, by the types in their sources: `table.load(..)` calls `Table::load` only if `table` is a `Table`.

    python3 tools/tests/callers.py

Prints each public function of a library with the programs that reach it: `betable`, the library for C (`bt_c`), the examples and the crates of tests. A program
reaches what its own functions call, what these call in turn, and the methods with which its crates implement a foreign trait (`next`, `drop`, `from`), which no
call names. A call of a trait's method reaches each implementation. Then it prints the calls on a value whose type is not found here, if the method has the name
of a public one. They count for no function.

Types are those of signatures, fields, patterns and literals, and of calls once their function is known. References and boxes are left out, and all lists and
iterators are of one type. Of the methods of foreign types only those of lists, options and results are known, by `GIVES`.
"""

import re
import sys
from collections import defaultdict
from collections.abc import Iterator
from dataclasses import dataclass, field
from functools import cache
from pathlib import Path

TOKEN = re.compile(r"""//[^\n]*|(?P<attribute>\#!?\[(?:[^\[\]]|\[[^\]]*\])*\])|b?"(?:\\[\s\S]|[^"\\])*"|b?'(?:\\[^']+|[^'\\\n])'|'\w+|\w+
    |::|->|=>|\.\.=|\.\.|&&|\|\||[=!<>]=|[-+*/%^&|]=|\S""", re.VERBOSE)  # fmt: skip
LIST = "[]"
CLOSING = {"(": ")", "[": "]", "{": "}"}
ENDS = {")", "]", "}", ",", ";", "=>", "else"}
TESTS = {"&&", "||", "==", "!=", "<=", ">=", "<", ">"}
SIGNS = TESTS | {"+", "-", "*", "/", "%", "^", "&", "|"}
ASSIGNED = {"=", "+=", "-=", "*=", "/=", "%=", "^=", "&=", "|="}
VALUES = ("const", "static", "type")
ITEMS = ("fn", "struct", "enum", "trait", "impl", "mod", "macro_rules", *VALUES)
# What methods of lists, options and results give: the same type, an item, an option of one, a list of items, what a closure gives, and so on.
GIVES = {name: gives for gives, names in {
    "same": "as_slice as_mut_slice as_ref as_mut as_deref rev skip take step_by split_off take_while skip_while filter by_ref clone copied cloned drain chain"
            " or collect par_iter replace context with_context map_err peekable",
    "item": "unwrap unwrap_or unwrap_or_else unwrap_or_default expect fold map_or",
    "option": "next first last get get_mut pop pop_front pop_back front front_mut back next_back first_mut last_mut find max_by min_by nth peek ok",
    "list": "iter iter_mut into_iter", "fault": "err", "result": "ok_or ok_or_else", "made": "map", "closure": "and_then", "numbered": "enumerate",
    "pairs": "zip", "halves": "split_at as_slices", "split": "split_first split_last", "lists": "chunks windows chunk_by chunks_exact par_chunks",
    "added": "push push_reserved push_back push_front insert append extend",
}.items() for name in names.split()}  # fmt: skip


def end_of(tokens: list[str], at: int, opening: str = "([{", closing: str = ")]}") -> int:
    """The place after the bracket that closes the next one of these."""
    depth = 0
    while True:
        word, at = tokens[at], at + 1
        depth += (word in opening) - (word in closing)
        if depth == 0 and word in closing:
            return at


def tokens_of(text: str) -> list[str]:
    """The words of a source without its comments, attributes, clauses and ghosts."""
    found = [token for token in TOKEN.finditer(text) if not token[0].startswith("//") and not token["attribute"]]
    words = [*(token[0] for token in found), ";"]
    is_first = [*(not text[text.rfind("\n", 0, token.start()) + 1 : token.start()].strip() for token in found), True]
    kept: list[str] = []
    at = 0
    while at < len(found):
        if words[at] == "ghost" and (is_first[at] or kept[-1:] == ["pub"]):
            kept = kept if is_first[at] else kept[:-1]
            while words[at] not in ("{", ";"):
                at += 1
            at = end_of(words, at, "{", "}") if words[at] == "{" else at
            while not is_first[at] and words[at] not in (";", ","):
                at += 1
            at += words[at] in (";", ",")
        elif words[at] in ("requires", "ensures", "measure") and is_first[at] and "{" in words[at + 1 : at + 3]:
            at = end_of(words, at, "{", "}")
        else:
            kept.append(words[at])
            at += 1
    return kept


@dataclass(eq=False)
class Type:
    """A type, unknown as long as it has no name. The name of a parameter has a quote. `fn` has its result and what it takes, and `::Job` the type whose `Job` it
    is."""

    name: str = ""
    of: list["Type"] = field(default_factory=list)
    item: "Item | None" = None
    bounds: list["Type"] = field(default_factory=list)
    same: "Type | None" = None


@dataclass(eq=False)
class Item:
    """What a module, a type, a trait or an `impl` has by a name, and the place of the token after the name."""

    kind: str
    name: str
    tokens: list[str]
    at: int
    around: "Item | None"  # a module, or the enum, trait or `impl` in one
    is_public: bool = False
    is_for_c: bool = False
    path: list[str] = field(default_factory=list)  # of an import
    body: int = 0
    parts: dict[str, list["Item"]] = field(default_factory=lambda: defaultdict(list))
    head: "Head | None" = None

    def module(self) -> "Item":
        return self if self.kind == "mod" or not self.around else self.around.module()

    def crate(self) -> str:
        return self.around.crate() if self.around else self.name


@dataclass
class Head:
    """The parameters of an item, the type that it is of, the trait of an `impl`, and what a function takes and returns."""

    generics: dict[str, Type] = field(default_factory=dict)
    own: Type = field(default_factory=Type)
    trait: Type | None = None
    takes: list[tuple[int, Type]] = field(default_factory=list)
    has_self: bool = False
    result: Type = field(default_factory=lambda: Type("()"))


def real(given: Type) -> Type:
    while given.same:
        given = given.same
    return given


def is_within(hole: Type, given: Type) -> bool:
    given = real(given)
    return given is hole or any(is_within(hole, part) for part in given.of)


def unify(left: Type, right: Type) -> None:
    """Makes unknown parts of two types that are the same known."""
    left, right = real(left), real(right)
    if left is right or "!" in (left.name, right.name):
        return
    if not left.name or not right.name:
        hole, other = (right, left) if left.name else (left, right)
        if not is_within(hole, other):
            hole.same = other
    elif left.name == right.name and left.item is right.item:
        for one, other in zip(left.of, right.of):
            unify(one, other)


def put_in(given: Type, values: dict[int, Type]) -> Type:
    """A type with values in the place of parameters."""
    given = real(given)
    if id(given) in values or not given.of:
        return values.get(id(given), given)
    return Type(given.name, [put_in(part, values) for part in given.of], given.item, given.bounds)


def part_of(given: Type, place: int) -> Type:
    """The type of a part of a tuple, or of an item of a list."""
    if given.name == "()":
        return given.of[place] if place < len(given.of) else Type()
    return given.of[0] if given.name == LIST else given


class House:
    """The crates of a folder: their modules and `impl` blocks, and which function calls which."""

    def __init__(self, top: Path) -> None:
        lines = [line.partition(":") for line in (top / "crates.txt").read_text().splitlines() if not line.startswith("#")]
        self.below = {head.split()[0]: names.split() for head, _, names in lines}
        self.for_c = {head.split()[0] for head, _, _ in lines if head.endswith(" staticlib")}
        self.libraries = {name for names in self.below.values() for name in names} | self.for_c
        self.programs = {crate for crate in self.below if (top / "crates" / crate / "src/main.rt").exists()} | self.for_c
        self.crates: dict[str, Item] = {}
        self.blocks: list[Item] = []
        self.functions: list[Item] = []
        self.calls: dict[Item, set[Item]] = defaultdict(set)
        self.unknown: list[str] = []
        for crate in self.below:
            source = top / "crates" / crate / "src"
            self.crates[crate] = Item("mod", crate, [], 0, None)
            self.read_module(self.crates[crate], source / ("main.rt" if (source / "main.rt").exists() else "lib.rt"), source)
        self.impls: dict[object, list[Item]] = defaultdict(list)
        for block in self.blocks:
            own = real(self.head(block).own)
            self.impls[own.item or own.name].append(block)
        self.methods = {function.name for function in self.functions if function.is_public and self.head(function).has_self}
        for function in self.functions:
            try:
                Reader(self, function, function.body).read_body()
            except IndexError as fault:
                raise ValueError(f"{self.name(function)} cannot be read") from fault

    def read_module(self, module: Item, path: Path, folder: Path) -> None:
        """The items of a file, and those of the files that it names."""
        text = path.read_text()
        if "#[test]" in text:
            self.programs.add(module.crate())
        module.tokens = tokens_of(text)
        self.collect(module, module.tokens, 0, len(module.tokens))
        for inner in [part for parts in list(module.parts.values()) for part in parts if part.kind == "mod" and not part.body]:
            self.read_module(inner, folder / f"{inner.name}.rt", folder / inner.name)

    def collect(self, around: Item, tokens: list[str], at: int, end: int) -> None:
        """Puts the items between two places into the module, the trait or the `impl` around them."""
        is_public = is_for_c = False
        while at < end:
            word, at = tokens[at], at + 1
            if word == "pub":
                is_public = tokens[at] != "("
                at = at if is_public else end_of(tokens, at)
            elif word == "extern":
                is_for_c = True
            elif word == "use":
                stop = tokens.index(";", at)
                for name, path in imports(" ".join(tokens[at:stop]).replace(" :: ", "::")):
                    around.parts[name].append(Item("use", name, tokens, at, around, is_public, path=path))
                at, is_public = stop + 1, False
            elif word in ITEMS and not (word == "const" and tokens[at] == "fn"):
                name = "" if word == "impl" else tokens[at]
                item = Item(word, name, tokens, at + bool(name), around, is_public or (around.kind == "trait" and around.is_public), is_for_c)
                while tokens[at] != ";" and (tokens[at] != "{" or word in VALUES):
                    at = end_of(tokens, at) if tokens[at] in CLOSING else at + 1
                item.body, at = (at, end_of(tokens, at)) if tokens[at] == "{" else (0, at + 1)
                if item.body and word in ("trait", "impl", "mod"):
                    self.collect(item, tokens, item.body + 1, at - 1)
                if word == "enum":
                    start = item.body + 1
                    while start < at - 1:
                        item.parts[tokens[start]].append(Item("variant", tokens[start], tokens, start + 1, item))
                        while start < at - 1 and tokens[start] != ",":
                            start = end_of(tokens, start) if tokens[start] in CLOSING else start + 1
                        start += 1
                {"impl": self.blocks, "fn": self.functions}.get(word, []).append(item)
                around.parts[name].append(item)
                is_public = is_for_c = False

    def resolve(self, module: Item, path: list[str], kinds: tuple[str, ...], depth: int = 0) -> Item | None:
        """What a path names in a module, of one of these kinds, or None if it is not of these crates."""
        found = module.parts.get(path[0], [])
        if path[0] == "crate":
            found = [self.crates[module.crate()]]
        elif path[0] in ("self", "super"):
            found = [module.around if path[0] == "super" and module.around else module]
        elif path[0] in self.crates and not found:
            found = [self.crates[path[0]]]
        for place in range(len(path)):
            wanted = kinds if place == len(path) - 1 else ("mod", "enum")
            reached = [self.resolve(one.module(), one.path, wanted, depth + 1) if one.kind == "use" and depth < 9 else one for one in found]
            held = [one for one in reached if one and one.kind in wanted]
            if not held or place == len(path) - 1:
                return held[0] if held else None
            found = held[0].parts.get(path[place + 1], [])
        return None

    def head(self, item: Item) -> Head:
        if item.head is None:
            item.head = Head()
            Reader(self, item, item.at).read_head()
        return item.head

    @cache
    def fields(self, item: Item) -> dict[str, Type]:
        """The types of the fields of a struct or a variant."""
        self.head(item)
        return Reader(self, item, item.at).read_fields()

    def trait(self, function: Item) -> Type | None:
        """The trait of the `impl` around a function."""
        block = function.around
        found = self.head(block).trait if block and block.kind == "impl" else None
        return real(found) if found else None

    def reached(self, program: str) -> set[Item]:
        """The functions that a program, an example, a crate of tests or the library for C reaches."""
        chain, left = {program}, [program]
        while left:
            added = {name for name in self.below[left.pop()] if name in self.below} - chain
            chain |= added
            left.extend(added)
        inside = {function for function in self.functions if function.crate() in chain}
        by_trait: dict[Item, list[Item]] = defaultdict(list)
        todo: list[Item] = []
        for function in inside:
            trait = self.trait(function)
            if trait and trait.item and function.name in trait.item.parts:
                by_trait[trait.item.parts[function.name][0]].append(function)
            elif trait or (function.crate() == program and (function.is_for_c or program not in self.for_c)):
                todo.append(function)
        done = set(todo)
        while todo:
            function = todo.pop()
            called = ((self.calls[function] | set(by_trait[function])) & inside) - done
            done |= called
            todo.extend(called)
        return done

    def name(self, function: Item) -> str:
        around = function.around
        owner = "" if around is None or around.kind == "mod" else around.name or real(self.head(around).own).name
        return "::".join(part for part in (function.crate(), owner, function.name) if part)

    def callers(self) -> list[tuple[str, list[str]]]:
        """The public functions of libraries, but for what C calls, by name, each with the programs that reach it."""
        reached = {crate: self.reached(crate) for crate in self.below if crate in self.programs}
        public = [one for one in self.functions if one.is_public and not one.is_for_c and one.crate() in self.libraries]
        return [(self.name(function), [crate for crate, functions in reached.items() if function in functions]) for function in public]


def imports(text: str) -> Iterator[tuple[str, list[str]]]:
    """The names that a `use` gives, each with its path."""
    before, brace, inside = text.partition("{")
    if not brace:
        path, _, other = text.strip().partition(" as ")
        names = path.split("::")
        names = names[:-1] if names[-1] == "self" and len(names) > 1 else names
        yield other or names[-1], names
        return
    depth, part = 0, ""
    for sign in inside[: inside.rindex("}")] + ",":
        depth += (sign == "{") - (sign == "}")
        if sign == "," and depth == 0:
            yield from imports(f"{before.strip()}{part.strip()}") if part.strip() else ()
            part = ""
        else:
            part += sign


class Reader:
    """Reads the tokens of an item from a place on: its head, its fields, or the body of a function, whose calls it notes."""

    def __init__(self, house: House, item: Item, at: int) -> None:
        self.house, self.item, self.tokens, self.at, self.head = house, item, item.tokens, at, item.head or Head()
        self.variables: dict[str, Type] = {}
        self.closure_takes: list[Type] = []  # the types of what the closure that comes next takes

    @property
    def word(self) -> str:
        return self.tokens[self.at]

    def has(self, *words: str) -> bool:
        """Whether one of these words comes next, which is then passed."""
        is_next = self.tokens[self.at] in words
        self.at += is_next
        return is_next

    def take(self) -> str:
        self.at += 1
        return self.tokens[self.at - 1]

    def skip_to(self, *words: str) -> int:
        """Goes on to one of these words outside brackets, and returns the place before."""
        start = self.at
        while self.word not in words:
            self.at = end_of(self.tokens, self.at) if self.word in CLOSING else self.at + 1
        return start

    def parts(self, closing: str) -> Iterator[int]:
        """The numbers of what is between commas, up to a closing bracket."""
        place = 0
        while not self.has(closing):
            yield place
            place += 1
            self.has(",", ";")

    # Heads and types.

    def read_head(self) -> None:
        kind, around, head = self.item.kind, self.item.around, self.head
        if around and around.kind in ("trait", "impl", "enum"):
            outer = self.house.head(around)
            head.generics.update(outer.generics)
            head.own, head.trait = outer.own, outer.trait
        if kind == "variant":
            return
        if self.word == "<":
            self.read_generics()
        if kind in ("struct", "enum", "trait"):
            head.own = Type(self.item.name, list(head.generics.values()), self.item)
        if kind == "trait":
            head.own = Type("'Self", bounds=[head.own])
            self.read_bounds(head.own)
        elif kind == "impl":
            head.own = self.type()
            if self.has("for"):
                head.trait, head.own = head.own, self.type()
        elif kind in VALUES and self.word != ";":
            self.skip_to("=" if kind == "type" else ":", ";")
            head.result = self.type() if not self.has(";") and self.take() else Type()
        elif kind == "fn":
            self.at += 1
            for _ in self.parts(")"):
                start = self.at
                while self.word in ("&", "mut") or self.word[0] == "'":
                    self.at += 1
                if self.has("self"):
                    head.has_self = True
                    continue
                self.skip_to(":")
                self.at += 1
                head.takes.append((start, self.type()))
            head.result = self.type() if self.has("->") else head.result

    def read_generics(self) -> None:
        """The parameters of types, which are known before their bounds are read."""
        self.at += 1
        start, depth = self.at, 1
        while depth:
            before, word = self.tokens[self.at - 1], self.take()
            depth += (word == "<") - (word == ">")
            if depth == 1 and before in ("<", ",") and word != "const" and word[0] not in "',":
                self.head.generics[word] = Type(f"'{word}")
        stop, self.at = self.at, start
        while self.at < stop:
            word = self.take()
            if self.word == ":" and word in self.head.generics:
                self.read_bounds(self.head.generics[word])

    def read_bounds(self, bounded: Type) -> None:
        self.at += self.word == ":"
        while self.word not in (",", ">", "{", "=", ";", "where", ")"):
            if self.word[0] == "'" or self.word in ("+", "?"):
                self.at += 1
            else:
                bounded.bounds.append(self.type())

    def type(self) -> Type:
        while self.word in ("&", "&&", "*", "mut", "const") or self.word[0] == "'":
            self.at += 1
        if self.has("dyn", "impl"):
            found = Type("'dyn")
            self.read_bounds(found)
            return found
        if self.has("("):
            parts = [self.type() for _ in self.parts(")")]
            return parts[0] if len(parts) == 1 and self.tokens[self.at - 2] != "," else Type("()", parts)
        if self.has("["):
            found = self.type()
            self.skip_to("]")
            self.at += 1
            return Type(LIST, [found])
        if self.has("<"):
            found = self.type()
            self.skip_to(">")
            self.at += 1
            while self.has("::"):
                found = Type(f"::{self.take()}", [found])
            return found
        names, given = self.path()
        return self.named(names, given)

    def path(self, is_value: bool = False) -> tuple[list[str], list[Type]]:
        """The names of a path, and the types that are given to the last name that is given any. After that of a value `<` is a sign."""
        names = [self.take()]
        given: list[Type] = []
        while True:
            if self.word == "(" and names[-1] in ("Fn", "FnMut", "FnOnce", "fn"):
                self.at += 1
                takes = [self.type() for _ in self.parts(")")]
                return ["fn"], [self.type() if self.has("->") else Type("()"), *takes]
            if self.has("::") and self.word != "<":
                names.append(self.take())
            elif self.word == "<" and (self.tokens[self.at - 1] == "::" or not is_value):
                self.at += 1
                given = []
                for _ in self.parts(">"):
                    self.at += 2 * (self.tokens[self.at + 1] == "=")
                    if self.word[0] == "'" or self.word[0].isdigit():
                        self.at += 1
                    else:
                        given.append(self.type())
            else:
                return names, given

    def named(self, names: list[str], given: list[Type]) -> Type:
        """The type that a path names."""
        if names[0] in ("_", "!"):
            return Type("" if names[0] == "_" else "!")
        if names[0] in self.head.generics or names[0] == "Self":
            own = self.head.generics.get(names[0]) or self.head.own
            for name in names[1:]:
                own = Type(f"::{name}", [own])
            return own
        item = self.house.resolve(self.item.module(), names, ("struct", "enum", "trait", "type"))
        if item is None:
            given = [*given, Type(), Type()]
            if names[-1] in ("Box", "Rc", "Arc"):
                return given[0]
            if names[-1] in ("Vec", "VecDeque", "LinkedList"):
                return Type(LIST, given[:1])
            return Type(names[-1], given[:2] if names[-1] in ("Option", "Result") else given[:-2])
        generics = list(self.house.head(item).generics.values())
        given = [*given, *(Type() for _ in generics[len(given) :])]
        if item.kind == "type":
            return put_in(self.house.head(item).result, {id(one): other for one, other in zip(generics, given)})
        return Type(item.name, given, item)

    def read_fields(self) -> dict[str, Type]:
        if self.item.kind == "struct":
            self.skip_to("{", "(", ";")
        found: dict[str, Type] = {}
        is_tuple = self.word == "("
        if self.has("(", "{"):
            for place in self.parts(")" if is_tuple else "}"):
                if self.has("pub") and self.word == "(" and self.tokens[self.at + 1] in ("crate", "super"):
                    self.at = end_of(self.tokens, self.at)
                name = str(place) if is_tuple else self.take()
                self.at += not is_tuple
                found[name] = self.type()
        return found

    # What types have.

    def known(self, given: Type) -> Type:
        """A type, and of `T::Job` the type that it is if T is known."""
        given = real(given)
        if given.name.startswith("::"):
            own = self.known(given.of[0])
            for block in self.house.impls[own.item or own.name]:
                for part in block.parts.get(given.name[2:], []):
                    return self.known(put_in(self.house.head(part).result, self.values(self.house.head(block), own)))
        return given

    def values(self, head: Head, own: Type | None = None) -> dict[int, Type]:
        """Types for the parameters of an item that is of a type: unknown ones, and of what can be called what it takes and returns."""
        values = {id(one): Type() for one in head.generics.values()}
        for one in head.generics.values():
            for bound in one.bounds:
                if bound.name == "fn":
                    values[id(one)].same = put_in(bound, values)
        if own:
            unify(put_in(head.own, values), own)
        return values

    def method(self, own: Type, name: str) -> tuple[Item, dict[int, Type]] | None:
        """The function that is the method of a type, its own or that of a trait, with types for the parameters around it."""
        traits = list(own.bounds)
        for block in sorted(self.house.impls.get(own.item or own.name, []), key=lambda block: bool(self.house.head(block).trait)) if own.name else []:
            trait = real(self.house.head(block).trait or Type())
            if name in block.parts and not (trait.item and name in trait.item.parts):
                return block.parts[name][0], self.values(self.house.head(block), own)
            traits.append(put_in(trait, self.values(self.house.head(block), own)))
        while traits:
            trait = traits.pop(0)
            if trait.item and trait.item.kind == "trait":
                head = self.house.head(trait.item)
                values = {**{id(one): other for one, other in zip(head.generics.values(), trait.of)}, id(head.own): own}
                if name in trait.item.parts:
                    return trait.item.parts[name][0], values
                traits.extend(put_in(above, values) for above in head.own.bounds[1:])
        return None

    def inside(self, given: Type, name: str) -> Type:
        """What `Some`, `Ok`, `Err` or `?` finds in a type. A list or a box that could be made is itself what it finds."""
        given = self.known(given)
        if not given.name and name != "?":
            given.same = Type("Option", [Type()]) if name == "Some" else Type("Result", [Type(), Type()])
            given = given.same
        if given.name in ("Option", "Result"):
            return given.of[-1 if name == "Err" else 0]
        return given if name != "Err" else Type()

    def struct(self, names: list[str]) -> Item | None:
        """The struct or variant that a path names."""
        found = self.house.resolve(self.item.module(), names, ("variant", "struct"))
        if not found and (names[0][0].isupper() or len(names) > 1):
            own = real(self.named(names, [])).item
            around = real(self.named(names[:-1], [])).item if len(names) > 1 else None
            variants = around.parts.get(names[-1], []) if around and around.kind == "enum" else []
            found = own if own and own.kind == "struct" else variants[0] if variants else None
        return found

    def fields_of(self, names: list[str], given: Type) -> dict[str, Type]:
        """The fields of the struct or variant of this name, of which the type becomes one."""
        if names[-1] in ("Some", "Ok", "Err"):
            return {"0": self.inside(given, names[-1])}
        item = self.struct(names)
        if item is None:
            return {}
        values = self.values(self.house.head(item), given)
        return {name: put_in(one, values) for name, one in self.house.fields(item).items()}

    # Patterns, statements and expressions.

    def read_body(self) -> None:
        if not self.item.body:
            return
        self.head = self.house.head(self.item)
        self.variables["self"] = self.head.own
        for start, given in self.head.takes:
            self.pattern_at(start, given)
        self.at = self.item.body
        unify(self.head.result, self.block())

    def pattern(self, given: Type, is_alone: bool = False) -> None:
        """Gives the names of a pattern the types of what they match. One that is alone ends at a bar."""
        while self.has("&", "&&", "mut", "ref", "-", "|"):
            pass
        given, word = self.known(given), self.take()
        if word in ("(", "["):
            for place in self.parts(CLOSING[word]):
                self.pattern(given if self.tokens[self.at + 1] == "@" else part_of(given, place))
        elif word[0] in "\"'0123456789" or word[:2] in ('b"', "b'"):
            self.at += 2 * (self.word in ("..", "..=") and self.tokens[self.at + 1] not in ENDS)
        elif word[0].islower() and self.word not in ("::", "(", "{"):
            self.variables[word] = given
            if self.has("@"):
                self.pattern(given, is_alone)
        elif word not in ("_", ".."):
            self.at -= 1
            names, _ = self.path(True)
            fields, opening = self.fields_of(names, given), self.word
            for place in self.parts(CLOSING[opening]) if self.has("(", "{") else ():
                while self.has("ref", "mut"):
                    pass
                name = str(place) if opening == "(" or self.word == ".." else self.take()
                if opening == "(" or self.word == ".." or self.has(":"):
                    self.pattern(fields.get(name) or Type())
                else:
                    self.variables[name] = fields.get(name) or Type()
            if self.has("..="):
                self.path()
        if not is_alone and self.word == "|":
            self.pattern(given)

    def pattern_at(self, start: int, given: Type, is_alone: bool = False) -> None:
        stop, self.at = self.at, start
        self.pattern(given, is_alone)
        self.at = stop

    def block(self) -> Type:
        """The value of a block."""
        self.at += 1
        value = Type("()")
        while not self.has("}"):
            if self.has(";"):
                value = value if value.name == "!" else Type("()")
            elif self.has("let"):
                start = self.skip_to(":", "=", ";")
                given = self.type() if self.has(":") else Type()
                if self.has("="):
                    unify(given, self.expression())
                if self.has("else"):
                    self.block()
                self.pattern_at(start, given)
            elif self.word in ("use", "const", "static"):
                self.skip_to(";")
            else:
                value = self.statement()
        return real(value)

    def statement(self) -> Type:
        """A block is a statement by itself, unless a method of its value is called."""
        if self.word in ("if", "match", "while", "for", "loop", "unsafe", "{") or (self.word[0] == "'" and self.tokens[self.at + 1] == ":"):
            value = self.primary(False)
            return self.rest(self.after(value), False) if self.word in (".", "?") else value
        return self.expression()

    def expression(self, is_bare: bool = False) -> Type:
        """The type of an expression. One that is bare ends before a brace."""
        return self.rest(self.operand(is_bare), is_bare)

    def rest(self, value: Type, is_bare: bool) -> Type:
        while True:
            word = self.word
            if self.has(*ASSIGNED):
                other = self.expression(is_bare)
                if word == "=":
                    unify(value, other)
                value = Type("()")
            elif self.has("..", "..="):
                if self.word not in ENDS and not (is_bare and self.word == "{"):
                    self.operand(is_bare)
                value = Type(LIST, [value])
            elif self.has(*SIGNS):
                is_shift = word in "<>" and self.has("<", ">", "<=", ">=")
                self.operand(is_bare)
                value = Type("bool") if word in TESTS and not is_shift else value
            else:
                return value

    def operand(self, is_bare: bool) -> Type:
        while self.has("&", "&&", "*", "!", "-", "mut"):
            pass
        return self.after(self.primary(is_bare))

    def after(self, value: Type) -> Type:
        """The type after the fields, methods, places and calls that follow a value."""
        while True:
            value = self.known(value)
            if self.has("?"):
                value = self.inside(value, "?")
            elif self.has("as"):
                value = self.type()
            elif self.has("["):
                place = self.known(self.expression())
                self.at += 1
                value = value if place.name == LIST else part_of(value, 0) if value.name == LIST else Type()
            elif self.word == "(":
                self.arguments(value.of[1:] if value.name == "fn" else [])
                value = value.of[0] if value.name == "fn" else Type()
            elif self.has("."):
                name = self.take()
                if self.word == "::":
                    self.at -= 1
                    self.path(True)
                value = self.called(value, name) if self.word == "(" else self.field(value, name)
            else:
                return value

    def field(self, own: Type, name: str) -> Type:
        if own.item and own.item.kind == "struct":
            found = self.house.fields(own.item).get(name)
            return put_in(found, self.values(self.house.head(own.item), own)) if found else Type()
        return part_of(own, int(name)) if name.isdigit() and own.name == "()" else Type()

    def arguments(self, takes: list[Type]) -> list[Type]:
        """The types of what is given in brackets. A closure knows what it takes."""
        self.at += 1
        found: list[Type] = []
        for place in self.parts(")"):
            wanted = self.known(takes[place]) if place < len(takes) else Type()
            self.closure_takes = wanted.of[1:] if wanted.name == "fn" else []
            found.append(self.expression())
            unify(wanted, found[-1])
        return found

    def call(self, function: Item, values: dict[int, Type], is_path: bool) -> Type:
        """The result of a call, or a function that a path names, with types for the parameters around it."""
        if function.kind == "fn":
            self.house.calls[self.item].add(function)
        head = self.house.head(function)
        values = {**self.values(head), **values}
        takes = [put_in(one, values) for one in ([head.own] if head.has_self and is_path else []) + [one for _, one in head.takes]]
        result = put_in(head.result, values)
        if self.word != "(":
            return Type("fn", [result, *takes]) if function.kind == "fn" else result
        self.arguments(takes)
        return result

    def called(self, own: Type, name: str) -> Type:
        """The result of a method of a value."""
        found = self.method(own, name)
        if found:
            return self.call(*found, False)
        if not own.name and name in self.house.methods:
            self.house.unknown.append(f"{self.house.name(self.item)}: .{name}()")
        return self.foreign(own, name)

    def foreign(self, own: Type, name: str) -> Type:
        """The result of a method of a list, an option, a result or another foreign type. A type of these crates that is an iterator is a list of its items."""
        if own.item:
            items = self.known(Type("::Item", [own]))
            own = Type(LIST, [items]) if items.name[:2] != "::" else Type("foreign")
        is_known = own.name in (LIST, "Option", "Result")
        gives, item, result = GIVES.get(name, "") if is_known else "", own.of[0] if is_known else Type(), Type()
        takes = own.of[1:] if name == "map_err" else [item, item]
        self.at += 1
        given: list[Type] = []
        for _ in self.parts(")"):
            self.closure_takes = takes
            given.append(self.known(self.expression()))
            result = given[-1].of[0] if given[-1].name == "fn" else result
        if gives == "added" and given:
            unify(own if given[-1].name == LIST and name in ("append", "extend") else item, given[-1])
        pair = Type("()", [Type("usize") if gives == "numbered" else item, part_of(given[0], 0) if gives == "pairs" else item if gives == "numbered" else own])
        found = {
            "same": own, "item": item, "option": Type("Option", [item]), "list": Type(LIST, [item]), "fault": Type("Option", own.of[1:]),
            "result": Type("Result", [item, Type()]), "made": Type(own.name, [result, *own.of[1:]]), "closure": result, "numbered": Type(LIST, [pair]),
            "pairs": Type(LIST, [pair]), "halves": Type("()", [own, own]), "split": Type("Option", [pair]), "lists": Type(LIST, [own]),
        }  # fmt: skip
        return found.get(gives) or Type()

    def primary(self, is_bare: bool) -> Type:
        word = self.word
        if word[0] == "'" and self.tokens[self.at + 1] == ":":
            self.at += 2
            return self.primary(is_bare)
        if word[0].isdigit() or word[0] in "\"'" or word[:2] in ('b"', "b'"):
            self.at += 1
            return Type(LIST, [Type("u8")]) if word[-1] == '"' else Type("literal")
        if word in ("|", "||", "move"):
            return self.closure()
        if word == "{" or self.has("unsafe"):
            return self.block()
        if self.has("("):
            parts = [self.expression() for _ in self.parts(")")]
            return parts[0] if len(parts) == 1 and self.tokens[self.at - 2] != "," else Type("()", parts)
        if self.has("["):
            item = Type()
            for _ in self.parts("]"):
                unify(item, self.expression())
            return Type(LIST, [item])
        if self.has("..", "..="):
            if self.word not in ENDS and not (is_bare and self.word == "{"):
                self.expression(is_bare)
            return Type(LIST, [Type("usize")])
        if self.has("return", "break", "continue"):
            self.at += self.word[0] == "'"
            if self.word not in ENDS:
                unify(self.head.result if word == "return" else Type(), self.expression())
            return Type("!")
        if self.has("let"):
            start = self.skip_to("=")
            self.at += 1
            given = self.operand(True)
            while self.has(*SIGNS - {"&&", "||"}):
                self.operand(True)
            self.pattern_at(start, given)
            return Type("bool")
        if self.has("if", "while"):
            self.expression(True)
            value = self.block()
            if self.has("else"):
                value = either(value, self.primary(False))
            return value
        if self.has("match"):
            return self.match()
        if self.has("for"):
            start = self.skip_to("in")
            self.at += 1
            given = self.known(self.expression(True))
            item = self.known(Type("::Item", [given])) if given.item else part_of(given, 0) if given.name == LIST else self.inside(given, "?")
            self.pattern_at(start, item if item.name[:2] != "::" else Type())
        if self.has("loop") or word == "for":
            self.block()
            return Type()
        return self.named_value(is_bare)

    def match(self) -> Type:
        given, value = self.expression(True), Type("!")
        self.at += 1
        for _ in self.parts("}"):
            self.pattern(given)
            if self.has("if"):
                self.expression()
            self.at += 1
            value = either(value, self.statement())
        return value

    def closure(self) -> Type:
        wanted, self.closure_takes = self.closure_takes, []
        takes: list[Type] = []
        self.has("move")
        if not self.has("||"):
            self.at += 1
            for place in self.parts("|"):
                start = self.skip_to(",", "|", ":")
                takes.append(self.type() if self.has(":") else wanted[place] if place < len(wanted) else Type())
                self.pattern_at(start, takes[-1], True)
        result = self.type() if self.has("->") else Type()
        outer, self.head = self.head, Head(self.head.generics, self.head.own, result=result)
        unify(result, self.expression())
        self.head = outer
        return Type("fn", [result, *takes])

    def named_value(self, is_bare: bool) -> Type:
        """A variable, a macro, a literal of a struct, or what a path names."""
        names, given = self.path(True)
        if self.word == "!" and self.tokens[self.at + 1] in CLOSING:
            return self.macro(names[0])
        if len(names) == 1 and names[0] in self.variables:
            return self.variables[names[0]]
        is_literal = self.word == "{" and not is_bare and names[-1][0].isupper()
        if is_literal or names[-1] in ("Some", "Ok", "Err") or self.struct(names):
            made = Type()
            fields = self.fields_of(names, made)
            if self.word == "(":
                self.arguments(list(fields.values()))
            elif is_literal:
                self.at += 1
                for _ in self.parts("}"):
                    name = self.word
                    self.at += 2 * (self.tokens[self.at + 1] == ":")
                    unify(made if name == ".." else fields.get(name) or Type(), self.expression())
            return made
        found = self.house.resolve(self.item.module(), names, ("fn", "const", "static"))
        if found:
            return self.call(found, {}, True)
        owner = self.known(self.named(names[:-1], given)) if len(names) > 1 else Type()
        if owner.item and owner.item.kind == "trait":
            owner = Type("'dyn", bounds=[owner])
        method = self.method(owner, names[-1])
        if method:
            return self.call(*method, True)
        if self.word != "(":
            return Type()
        takes = self.arguments([])
        if owner.name == LIST:
            return owner
        if names[:-1] in (["mem"], ["Box"]) or (len(names) == 1 and takes):
            return takes[-1 if names[0] == "Box" else 0]
        return Type(LIST, takes) if names[0] == "slice" else Type(owner.name) if owner.name[:1].isupper() else Type()

    def macro(self, name: str) -> Type:
        """The calls in what a macro is given. `matches!` has a pattern, and a name before `=>` is that of the value before."""
        self.at += 1
        value = Type()
        closing = CLOSING[self.take()]
        self.has("in")
        for place in self.parts(closing):
            if name == "matches" and place == 1:
                self.pattern(value)
                if self.has("if"):
                    self.expression()
            else:
                if self.tokens[self.at + 1] == "=>":
                    self.variables[self.take()] = value
                    self.at += 1
                value = self.expression()
        return Type("!") if name in ("unreachable", "bail") else Type(LIST, [value]) if name == "vec" else Type("foreign")


def either(left: Type, right: Type) -> Type:
    """The type of two branches."""
    unify(left, right)
    return real(right if real(left).name == "!" else left)


def main() -> int:
    house = House(Path(__file__).resolve().parents[2])
    print("\n".join(f"{name}: {', '.join(programs) or 'no program'}" for name, programs in house.callers()))
    print("\n".join([f"\n{len(house.unknown)} calls on values of unknown types:", *house.unknown]))
    return 0


if __name__ == "__main__":
    sys.exit(main())
