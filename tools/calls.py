"""The calls of each function of the program, read from its sources.

A source is read as the compiler reads it, in small: paths by modules and imports, methods by the type of their receiver, which comes
from what parameters, fields, results and patterns are declared to be. Of the standard library's methods it knows that most give what
has the same items as their receiver (an Option, a Result, a slice, a Vec or an iterator), and has a table of the others. A method of
a type parameter is that of each implementation of its trait. A function that is named and not called (`.map(f)`) counts as called.

Not seen are the calls that no source shows: `Display` in a format, conversions by `?`, operators but an index, `Drop`. A method whose
receiver has no known type is left out, and noted if a type of ours has a method of that name."""

from __future__ import annotations

import collections
import re
from dataclasses import dataclass, field
from pathlib import Path
from typing import Dict, Iterator, List, NamedTuple, Optional, Sequence, Set, Tuple, Union

TOP = Path(__file__).resolve().parent.parent
PROGRAM = "sioaudit"
TOKEN = re.compile(
    r"""(?:\s+|//[^\n]*|/\*.*?\*/)+
    |(?P<text>b?r(?P<hashes>\#*)".*?"(?P=hashes)|b?"(?:\\.|[^"\\])*"|b?'(?:\\(?:x..|u\{[^}]*\}|.)|[^\\'\n])'|\d\w*(?:\.\d+)?)
    |(?P<life>'\w+)
    |(?P<name>[^\W\d]\w*)
    |(?P<sign>::|->|=>|\.\.=|\.\.|&&|\|\||==|!=|<=|>=|<<|[-+*/%^&|]=|.)""",
    re.S | re.X,
)
CLOSING = {"(": ")", "[": "]", "{": "}"}
OPERATORS = set("+ - * / % ^ & | << < > == != <= >= && || = += -= *= /= %= ^= &= |= .. ..= as".split())
# what stands behind an expression
ENDS = {")", "]", "}", ",", ";", "=>", ""}
# seen as what they hold
SEEN_THROUGH = {"ManuallyDrop", "Box", "Arc", "Rc"}
MAPS = {"HashMap", "IndexMap", "BTreeMap"}
# methods by what they give: the item, what a closure gives, the value of a map
ITEM = {"or_insert", "join", "unwrap", "unwrap_or", "unwrap_or_else", "remove"}
GIVEN = {"and_then", "map_or", "map_or_else", "fold"}
VALUE = {"get", "get_mut", "entry", "values", "remove"}

PathTo = Tuple[str, ...]


class Token(NamedTuple):
    kind: str
    text: str


class Type(NamedTuple):
    """A type without its references; None stands for one that isn't known. Its head is a type of ours, a path before it is looked up,
    or a text: a type of the standard library, a parameter, or `[]`, `()`, `fn`, `impl`."""

    head: Union[str, Named, PathTo]
    args: Tuple[Optional[Type], ...] = ()


Types = Sequence[Optional[Type]]
Generics = Dict[str, List[Type]]
Fields = Dict[str, Optional[Type]]


@dataclass(eq=False)
class Function:
    module: Module
    name: str
    generics: Generics
    params: List[Tuple[List[Token], Optional[Type]]]
    result: Optional[Type]
    body: List[Token]
    self_type: Optional[Type] = None

    def full_name(self) -> str:
        of = self.self_type and self.self_type.head
        return f"{self.module.crate}::{of.name}::{self.name}" if isinstance(of, Named) else f"{self.module.crate}::{self.name}"


@dataclass(eq=False)
class Named:
    """A struct, an enum, a trait or an alias."""

    module: Module
    name: str
    generics: Generics
    fields: Fields = field(default_factory=dict)
    variants: Dict[str, Fields] = field(default_factory=dict)
    methods: Dict[str, Function] = field(default_factory=dict)
    implementations: List[Dict[str, Function]] = field(default_factory=list)
    alias: Optional[Type] = None


@dataclass(eq=False)
class Module:
    """A file, with what its names stand for: a path for one that is imported."""

    crate: str
    file: Path
    above: Optional[Module]
    names: Dict[str, List[object]] = field(default_factory=lambda: collections.defaultdict(list))


@dataclass
class Implementation:
    module: Module
    generics: Generics
    trait: Optional[Type]
    of: Optional[Type]
    functions: List[Function]


def crates() -> Dict[str, List[str]]:
    """The crates of crates.txt in their order, each with what it depends on, libraries too."""
    found = {}
    for line in (TOP / "crates.txt").read_text().splitlines():
        name, colon, others = line.split("#")[0].partition(":")
        if colon:
            found[name.split()[0]] = others.split()
    return found


def end_of(tokens: List[Token], at: int) -> int:
    """Where what the bracket there opens is over."""
    depth = 0
    while at < len(tokens):
        depth += (tokens[at].text in CLOSING) - (tokens[at].text in CLOSING.values())
        at += 1
        if depth == 0:
            break
    return at


def tokens_of(text: str) -> List[Token]:
    """The tokens of a source, without attributes and without what is there for the prover."""
    found = [Token("text" if it.lastgroup == "hashes" else it.lastgroup, it[0]) for it in TOKEN.finditer(text) if it.lastgroup]
    kept: List[Token] = []
    at = 0
    while at < len(found):
        here, after = found[at].text, [it.text for it in found[at + 1 : at + 3]]
        if here == "#" and after[0] in ("[", "!"):
            at = end_of(found, at + 1 + after.index("["))
        elif here in ("requires", "ensures") and "{" in after:
            at = end_of(found, at + 1 + after.index("{"))
        elif here == "ghost":
            del kept[len(kept) - (kept[-1:] == [Token("name", "pub")]) :]
            while found[at].text not in (";", ",", "}"):
                at = end_of(found, at) if found[at].text in CLOSING else at + 1
            at += found[at].text != "}"
        else:
            kept.append(found[at])
            at += 1
    return kept


class Cursor:
    """A place among tokens."""

    def __init__(self, tokens: List[Token]) -> None:
        self.tokens, self.at = tokens, 0

    def text(self, ahead: int = 0) -> str:
        return self.tokens[self.at + ahead].text if self.at + ahead < len(self.tokens) else ""

    def kind(self) -> str:
        return self.tokens[self.at].kind if self.at < len(self.tokens) else ""

    def next(self) -> str:
        self.at += 1
        return self.text(-1)

    def take(self, text: str) -> bool:
        """Goes past this token, if it stands here."""
        is_here = self.text() == text
        self.at += is_here
        return is_here

    def past(self, *texts: str) -> None:
        """Goes past all of these, and lifetimes."""
        while self.text() in texts or self.kind() == "life":
            self.at += 1

    def need(self, text: str) -> None:
        if not self.take(text):
            around = " ".join(it.text for it in self.tokens[max(0, self.at - 12) : self.at + 8])
            raise SyntaxError(f"`{text}` is missing before `{self.text()}` in: {around}")

    def inside(self) -> List[Token]:
        """The tokens in the brackets that open here; it goes past them."""
        begin, self.at = self.at, end_of(self.tokens, self.at)
        return self.tokens[begin + 1 : self.at - 1]

    def until(self, *texts: str) -> List[Token]:
        """The tokens up to one of these outside of brackets; it goes up to it."""
        begin = self.at
        while self.at < len(self.tokens) and self.text() not in texts:
            self.at = end_of(self.tokens, self.at) if self.text() in CLOSING else self.at + 1
        return self.tokens[begin : self.at]

    def items(self, end: str = "") -> Iterator[int]:
        """A turn for each item of a list with commas, up to its end, which it goes past."""
        number = 0
        while self.text() != end:
            yield number
            number += 1
            if not self.take(","):
                break
        if end:
            self.need(end)

    def path(self) -> PathTo:
        self.take("::")
        found = [self.next()]
        while self.text() == "::" and self.text(1) != "<":
            self.next()
            found.append(self.next())
        return tuple(found)

    # types

    def type(self) -> Optional[Type]:
        self.past("&", "&&", "mut")
        if self.take("("):
            parts = [self.type() for _ in self.items(")")]
            return parts[0] if len(parts) == 1 and self.text(-2) != "," else Type("()", tuple(parts))
        if self.text() == "[":
            return Type("[]", (Cursor(self.inside()).type(),))
        if self.text() in ("impl", "dyn"):
            self.next()
            return Type("impl", tuple(self.bounds()))
        if self.take("fn"):
            self.inside()
            return Type("fn", (self.type() if self.take("->") else None,))
        return None if self.take("_") else self.path_type()

    def path_type(self) -> Type:
        path = self.path()
        if self.text() == "(":
            # (of `Fn(..) -> ..` nothing is asked)
            self.inside()
            return Type(path, (self.type(),) if self.take("->") else ())
        return Type(path, tuple(self.arguments()))

    def arguments(self) -> Types:
        """The types of `<..>`; none where it doesn't stand here."""
        self.take("::")
        found: List[Optional[Type]] = []
        for _ in self.items(">") if self.take("<") else ():
            if self.kind() in ("life", "text"):
                self.next()
            elif self.text(1) == "=":
                self.at += 2
                self.type()
            else:
                found.append(self.type())
        return found

    def bounds(self) -> List[Type]:
        found = []
        while True:
            self.past("?")
            if self.kind() == "name":
                found.append(self.path_type())
            if not self.take("+"):
                return found

    def generics(self) -> Generics:
        """The parameters of `<..>`, each with its bounds; none where it doesn't stand here."""
        found: Generics = {}
        for _ in self.items(">") if self.take("<") else ():
            self.take("const")
            is_life, name = self.kind() == "life", self.next()
            bounds = self.bounds() if self.take(":") else []
            if not is_life:
                found[name] = bounds
        return found

    def fields(self) -> Fields:
        """The fields of a struct or of a variant; those of a tuple are named by their numbers."""
        is_named = self.text() == "{"
        at = Cursor(self.inside())
        found: Fields = {}
        for number in at.items():
            if at.take("pub") and at.text() == "(":
                at.inside()
            name = at.next() if is_named else str(number)
            if is_named:
                at.need(":")
            found[name] = at.type()
        return found


class Sources:
    """The crates of the program, with what stands in them by name."""

    def __init__(self) -> None:
        self.below = crates()
        self.functions: List[Function] = []
        self.named: List[Named] = []
        self.implementations: List[Implementation] = []
        program = self.all_below(PROGRAM)
        # (imports that are looked up now)
        self.followed: Set[Tuple[int, PathTo]] = set()
        self.roots = {it: self.module(it, root_of(it), None) for it in self.below if it in program}
        for it in self.implementations:
            self.implement(it)
        self.method_names = {it.name for it in self.functions if it.self_type}

    def all_below(self, crate: str) -> Set[str]:
        """A crate, and those that it depends on."""
        found, left = {crate}, [crate]
        while left:
            more = {it for it in self.below[left.pop()] if it in self.below} - found
            found |= more
            left += more
        return found

    def module(self, crate: str, file: Path, above: Optional[Module]) -> Module:
        """Takes in what stands in a file."""
        module = Module(crate, file, above)
        at = Cursor(tokens_of(file.read_text()))
        while at.text():
            word = at.next()
            if word == "pub" and at.text() == "(":
                at.inside()
            elif word == "use":
                self.imports(at, (), module)
                at.need(";")
            elif word == "mod":
                name = at.next()
                folder = file.with_suffix("") if above else file.parent
                module.names[name].append(self.module(crate, folder / f"{name}.rt", module))
            elif word == "fn":
                made = self.function(at, module, {})
                self.functions.append(made)
                module.names[made.name].append(made)
            elif word in ("struct", "enum", "type", "trait"):
                self.declare(at, word, module)
            elif word == "impl":
                generics, trait, of = at.generics(), None, at.type()
                if at.take("for"):
                    trait, of = of, at.type()
                at.until("{")
                self.implementations.append(Implementation(module, generics, trait, of, self.methods(at, module, generics)))
            elif word in ("const", "static") and at.text() != "fn":
                at.until(";")
        return module

    def imports(self, at: Cursor, front: PathTo, module: Module) -> None:
        if at.take("{"):
            for _ in at.items("}"):
                self.imports(at, front, module)
            return
        word = at.next()
        path = front if word == "self" and front else (*front, word)
        if at.take("::"):
            self.imports(at, path, module)
        else:
            module.names[at.next() if at.take("as") else path[-1]].append(path)

    def function(self, at: Cursor, module: Module, generics: Generics) -> Function:
        name, generics = at.next(), {**generics, **at.generics()}
        inner, params = Cursor(at.inside()), []
        for _ in inner.items():
            pattern = inner.until(":", ",")
            params.append((pattern, inner.type() if inner.take(":") else Type(("Self",))))
        result = at.type() if at.take("->") else Type("()")
        at.until("{", ";")
        return Function(module, name, generics, params, result, at.inside() if at.text() == "{" else [])

    def methods(self, at: Cursor, module: Module, generics: Generics) -> List[Function]:
        """The functions of the block that opens here."""
        inner, found = Cursor(at.inside()), []
        while inner.text():
            if inner.next() == "fn":
                found.append(self.function(inner, module, generics))
        return found

    def declare(self, at: Cursor, kind: str, module: Module) -> None:
        made = Named(module, at.next(), at.generics())
        self.named.append(made)
        module.names[made.name].append(made)
        at.until("{", "(", ";", "=")
        if at.take("="):
            made.alias = at.type()
        elif kind == "trait":
            made.methods = {it.name: it for it in self.methods(at, module, {})}
            for it in made.methods.values():
                it.self_type = Type(made)
        elif kind == "enum":
            inner = Cursor(at.inside())
            for _ in inner.items():
                name = inner.next()
                made.variants[name] = inner.fields() if inner.text() in CLOSING else {}
                inner.until(",")
        elif at.text() in CLOSING:
            made.fields = at.fields()

    def implement(self, it: Implementation) -> None:
        """Puts the functions of an implementation with their type, and with their trait."""
        self_type = self.resolved(it.module, it.of, it.generics, None)
        its = {function.name: function for function in it.functions}
        for function in it.functions:
            function.self_type = self_type
            self.functions.append(function)
        if self_type and isinstance(self_type.head, Named):
            self_type.head.methods.update(its)
        trait = self.resolved(it.module, it.trait, {}, None)
        if trait and isinstance(trait.head, Named):
            trait.head.implementations.append(its)

    def find(self, module: Optional[Module], path: PathTo, kinds: Tuple[type, ...]) -> Union[Function, Named, Module, None]:
        """What a path names, of these kinds."""
        if module is None or not path:
            return None
        if path[0] in ("crate", "self", "super"):
            begin = {"crate": self.roots[module.crate], "self": module, "super": module.above}[path[0]]
            return self.find(begin, path[1:], kinds)
        wanted = kinds if len(path) == 1 else (Module, Named)
        named = module.names.get(path[0], [])

        def candidates() -> Iterator[object]:
            """What is declared here, a crate, and then what is imported: a module may import a function that its own submodule is named for."""
            yield from (it for it in named if not isinstance(it, tuple))
            yield self.roots.get(path[0])
            for it in named:
                if isinstance(it, tuple) and it != path[: len(it)] and (id(module), it) not in self.followed:
                    self.followed.add((id(module), it))
                    # (by the names of this module, or those of a crate)
                    found = self.find(module, it, wanted) or self.find(self.roots.get(it[0]), it[1:], wanted)
                    self.followed.discard((id(module), it))
                    yield found

        for it in candidates():
            if not isinstance(it, wanted):
                continue
            if len(path) == 1:
                assert isinstance(it, (Function, Named, Module))
                return it
            if isinstance(it, Module):
                inner = self.find(it, path[1:], kinds)
                if inner:
                    return inner
            elif isinstance(it, Named) and len(path) == 2 and Function in kinds:
                of = self.resolved(it.module, it.alias, {}, None)
                owner = of.head if of and isinstance(of.head, Named) else it
                if path[1] in owner.methods:
                    return owner.methods[path[1]]
        return None

    def resolved(self, module: Module, it: Optional[Type], generics: Generics, self_type: Optional[Type]) -> Optional[Type]:
        """A type whose paths are looked up."""
        if it is None:
            return None
        args = tuple(self.resolved(module, arg, generics, self_type) for arg in it.args)
        path = it.head
        if not isinstance(path, tuple):
            return Type(path, args)
        if path == ("Self",):
            return self_type
        if path[0] in generics:
            return Type(path[0]) if len(path) == 1 else None
        found = self.find(module, path, (Named,))
        if not isinstance(found, Named):
            return args[0] if path[-1] in SEEN_THROUGH and args else Type(path[-1], args)
        alias = self.resolved(found.module, found.alias, found.generics, None)
        return replaced(alias, dict(zip(found.generics, args))) if alias else Type(found, args)


def root_of(crate: str) -> Path:
    main = TOP / "crates" / crate / "src/main.rt"
    return main if main.exists() else main.with_name("lib.rt")


def replaced(it: Optional[Type], given: Fields) -> Optional[Type]:
    """A type with these parameters replaced."""
    if it is None or not given:
        return it
    if isinstance(it.head, str) and it.head in given:
        return given[it.head]
    return Type(it.head, tuple(replaced(arg, given) for arg in it.args))


def item(of: Optional[Type]) -> Optional[Type]:
    """What a type has items of."""
    if of is None or not of.args:
        return None
    return Type("()", of.args[:2]) if of.head in MAPS else of.args[0]


def part(of: Optional[Type], number: int) -> Optional[Type]:
    """A part of a tuple."""
    return of.args[number] if of and of.head == "()" and number < len(of.args) else None


class Body:
    """The calls of a function, in their order, and the names of methods that are left out. Of an enum of which cases are given, only
    the arms of these cases are looked at."""

    def __init__(self, sources: Sources, function: Function, cases: Dict[str, Set[str]]) -> None:
        self.sources, self.function, self.cases = sources, function, cases
        self.at = Cursor(function.body)
        self.scopes: List[Fields] = [{}]
        self.calls: List[Function] = []
        self.left_out: List[str] = []
        for pattern, it in function.params:
            self.bind(pattern, self.type_in(function, it))
        while self.at.text():
            self.statement()

    def type_in(self, function: Function, it: Optional[Type]) -> Optional[Type]:
        return self.sources.resolved(function.module, it, function.generics, function.self_type)

    def here(self, it: Optional[Type]) -> Optional[Type]:
        return self.type_in(self.function, it)

    def field_type(self, of: Named, it: Optional[Type], args: Types = ()) -> Optional[Type]:
        return replaced(self.sources.resolved(of.module, it, of.generics, Type(of)), dict(zip(of.generics, args)))

    def constructor(self, path: PathTo) -> Tuple[Optional[Named], Fields]:
        """The struct, or the enum with its variant, that a path names, and the fields."""
        for it, fields in ((path, None), (path[:-1], path[-1])):
            of = self.here(Type(it)) if it else None
            if of and isinstance(of.head, Named) and (fields is None or fields in of.head.variants):
                return of.head, of.head.fields if fields is None else of.head.variants[fields]
        return None, {}

    # patterns

    def bind(self, tokens: List[Token], it: Optional[Type]) -> None:
        """Gives the names of a pattern their types."""
        at = Cursor(tokens)
        while at.text():
            at.past("&", "&&", "ref", "mut", "|")
            if at.text() in ("(", "["):
                is_tuple, inner = at.text() == "(", Cursor(at.inside())
                for number in inner.items():
                    self.bind(inner.until(","), part(it, number) if is_tuple else item(it))
            elif at.kind() == "name":
                path = at.path()
                if at.text() in CLOSING:
                    self.bind_fields(at, self.fields_in(path, it))
                elif len(path) == 1 and path[0][0].islower():
                    self.scopes[-1][path[0]] = it
                    if at.take("@") and at.text() != "..":
                        continue
            at.until("|")

    def bind_fields(self, at: Cursor, fields: Fields) -> None:
        is_named, inner = at.text() == "{", Cursor(at.inside())
        for number in inner.items():
            inner.past("ref", "mut")
            name = inner.text() if is_named else str(number)
            if is_named and inner.text(1) == ":":
                inner.at += 2
            self.bind(inner.until(","), fields.get(name))

    def fields_in(self, path: PathTo, it: Optional[Type]) -> Fields:
        """The types of the fields in a pattern with this path."""
        if path in (("Some",), ("Ok",)):
            return {"0": item(it)}
        if path == ("Err",):
            return {"0": it.args[1] if it and len(it.args) > 1 else None}
        of, fields = self.constructor(path)
        args = it.args if it and it.head is of else ()
        return {name: self.field_type(of, form, args) for name, form in fields.items()} if of else {}

    # statements and expressions: each gives its type

    def within(self, tokens: List[Token]) -> Cursor:
        """Goes into these tokens, and gives the place to come back to."""
        outer, self.at = self.at, Cursor(tokens)
        return outer

    def block(self) -> Optional[Type]:
        outer = self.within(self.at.inside())
        self.scopes.append({})
        result: Optional[Type] = None
        while self.at.text():
            result = self.statement()
        self.scopes.pop()
        self.at = outer
        return result

    def statement(self) -> Optional[Type]:
        """The next statement; its type counts where a block ends with it."""
        at = self.at
        if at.take("let"):
            pattern = at.until("=", ":", ";")
            declared = self.here(at.type()) if at.take(":") else None
            given = self.expression() if at.take("=") else None
            if at.take("else"):
                self.block()
            self.bind(pattern, declared or given)
        elif at.text() in ("const", "static", "use"):
            at.until(";")
        elif at.text() in ("if", "match", "while", "for", "loop", "{", "unsafe"):
            result = self.operand(False)
            if at.text() not in (".", "?"):
                return result
            result = self.operators(self.after(result), False)
        elif at.text() != ";":
            result = self.expression()
        return None if at.take(";") else result

    def expression(self, is_plain: bool = False) -> Optional[Type]:
        """An expression; a plain one has no struct literal outside of brackets."""
        return self.operators(None if self.at.text() in ("..", "..=") else self.unary(is_plain), is_plain)

    def operators(self, left: Optional[Type], is_plain: bool) -> Optional[Type]:
        at = self.at
        while at.text() in OPERATORS:
            sign = at.next()
            if sign == ">":
                at.past(">", "=")
            if sign == "as":
                left = self.here(at.type())
            elif at.text() not in ENDS and not (is_plain and at.text() == "{"):
                right = self.unary(is_plain)
                left = left or right
            if sign.startswith(".."):
                left = Type("Range", (left,))
        return left

    def unary(self, is_plain: bool) -> Optional[Type]:
        at = self.at
        # (a colon stands behind the label of a loop)
        at.past("&", "&&", "*", "-", "!", "mut", ":")
        if at.take("let"):
            pattern = at.until("=")
            at.need("=")
            self.bind(pattern, self.expression(is_plain))
            return None
        return self.after(self.operand(is_plain))

    def after(self, it: Optional[Type]) -> Optional[Type]:
        """What stands behind an operand: fields, methods, indices, `?`."""
        at = self.at
        while True:
            if at.take("?"):
                it = item(it)
            elif at.text() == "[":
                outer = self.within(at.inside())
                index = self.expression()
                self.at = outer
                if not index or index.head != "Range":
                    its = self.methods(it, "index")
                    it = self.called(its[0], it) if its else item(it)
            elif at.text() == "(":
                self.arguments(None)
                it = item(it)
            elif at.take("."):
                name, asked = at.next(), at.arguments() if at.text() == "::" else ()
                if at.text() == "(":
                    it = self.method(it, name, asked)
                elif it and isinstance(it.head, Named):
                    it = self.field_type(it.head, it.head.fields.get(name), it.args)
                else:
                    it = part(it, int(name)) if name.isdigit() else None
            else:
                return it

    def operand(self, is_plain: bool) -> Optional[Type]:
        at = self.at
        if at.kind() == "text":
            at.next()
            return None
        if at.take("("):
            parts = [self.expression() for _ in at.items(")")]
            return parts[0] if len(parts) == 1 and at.text(-2) != "," else Type("()", tuple(parts))
        if at.text() == "[":
            return Type("[]", (self.list(at.inside()),))
        if at.text() == "{":
            return self.block()
        if at.text() in ("|", "||", "move"):
            return self.closure(None)
        if at.kind() != "name":
            raise SyntaxError(f"no expression begins with `{at.text()}`")
        if at.text() in ("return", "break", "continue"):
            at.next()
            at.past()
            if at.text() not in ENDS:
                self.expression(is_plain)
            return None
        if at.text() in ("if", "match", "while", "for", "loop", "unsafe"):
            self.scopes.append({})
            result = self.branches(at.next())
            self.scopes.pop()
            return result
        return self.named(is_plain)

    def branches(self, word: str) -> Optional[Type]:
        """What follows a word that begins blocks; the type is that of the first that has one."""
        if word == "match":
            return self.arms(self.expression(True))
        if word == "for":
            pattern = self.at.until("in")
            self.at.need("in")
            self.bind(pattern, item(self.expression(True)))
        elif word in ("if", "while"):
            self.expression(True)
        result = self.block()
        if word == "if" and self.at.take("else"):
            other = self.operand(False)
            return result or other
        return result if word in ("if", "unsafe") else None

    def arms(self, of: Optional[Type]) -> Optional[Type]:
        outer = self.within(self.at.inside())
        result: Optional[Type] = None
        is_over = False
        while self.at.text():
            self.scopes.append({})
            pattern = self.at.until("if", "=>")
            fits = self.fits(pattern)
            calls, left_out = list(self.calls), list(self.left_out)
            self.bind(pattern, of)
            is_guarded = self.at.take("if")
            if is_guarded:
                self.expression()
            self.at.need("=>")
            given = self.statement() if self.at.text() == "{" else self.expression()
            result = result or given
            self.at.take(",")
            self.scopes.pop()
            if fits is False or is_over:
                self.calls, self.left_out = calls, left_out
            is_over = is_over or (fits is True and not is_guarded)
        self.at = outer
        return result

    def fits(self, pattern: List[Token]) -> Optional[bool]:
        """Whether a pattern names one of the cases that are given, or only others; None where it names none of their enums."""
        texts = [it.text for it in pattern]
        named = {(texts[at - 1], texts[at + 1]) for at, it in enumerate(texts) if it == "::" and texts[at - 1] in self.cases}
        return any(variant in self.cases[of] for of, variant in named) if named else None

    def closure(self, takes: Optional[Type]) -> Type:
        """A closure; what its parameters are where they aren't declared."""
        at = self.at
        at.take("move")
        self.scopes.append({})
        if not at.take("||"):
            at.need("|")
            for _ in at.items("|"):
                pattern = at.until(":", ",", "|")
                self.bind(pattern, self.here(at.type()) if at.take(":") else takes)
        declared = self.here(at.type()) if at.take("->") else None
        given = self.expression()
        self.scopes.pop()
        return Type("fn", (declared or given,))

    def arguments(self, takes: Optional[Type]) -> Types:
        self.at.need("(")
        return [self.closure(takes) if self.at.text() in ("|", "||", "move") else self.expression() for _ in self.at.items(")")]

    def list(self, tokens: List[Token]) -> Optional[Type]:
        """The items of `[..]` or of a macro, and the type of the first."""
        outer, first = self.within(tokens), None
        try:
            while self.at.text():
                self.at.past("in", ",", ";")
                given = self.expression()
                first = first or given
                if self.at.text() not in (",", ";"):
                    break
        except SyntaxError:
            # (what a macro has need not be expressions)
            pass
        self.at = outer
        return first

    # names and calls

    def named(self, is_plain: bool) -> Optional[Type]:
        """What begins with a path: a local, a macro, a struct, a call, a function, a constant."""
        at = self.at
        path = at.path()
        at.arguments() if at.text() == "::" else None
        if at.text() == "!" and at.text(1) in CLOSING:
            at.next()
            first = self.list(at.inside())
            return {"vec": Type("Vec", (first,)), "format": Type("Result", (Type("String"),))}.get(path[0])
        for scope in reversed(self.scopes) if len(path) == 1 else ():
            if path[0] in scope:
                return scope[path[0]]
        of = Type(self.constructor(path)[0] or "?")
        if at.text() == "{" and not is_plain and path[-1][0].isupper():
            outer = self.within(at.inside())
            for _ in self.at.items():
                self.at.at += 2 * (self.at.text(1) == ":")
                self.expression()
            self.at = outer
            return of
        functions, is_call = self.functions(path), at.text() == "("
        args = self.arguments(None) if is_call else []
        results = [self.called(it, None) for it in functions]
        if results:
            return results[0] if is_call else Type("fn", (results[0],))
        return self.made(path, args) if of.head == "?" else of

    def made(self, path: PathTo, args: Types) -> Optional[Type]:
        """What a function or a constructor of the standard library makes."""
        first = args[0] if args else None
        if path in (("Some",), ("Ok",)):
            return Type("Some", (first,))
        if path[-1] in ("new", "with_capacity") and len(path) > 1:
            of = self.here(Type(path[:-1]))
            return first if path[0] in SEEN_THROUGH else of if path[-1] == "new" else Type("Result", (of,))
        return None

    def functions(self, path: PathTo) -> List[Function]:
        """The functions that a path names."""
        if len(path) == 2 and (path[0] == "Self" or path[0] in self.function.generics):
            return self.methods(self.here(Type(path[:1])), path[1])
        found = self.sources.find(self.function.module, path, (Function,))
        return [found] if isinstance(found, Function) else []

    def methods(self, of: Optional[Type], name: str) -> List[Function]:
        """The methods of this name that a type has; of a parameter, those of all implementations of its trait."""
        if of is None or isinstance(of.head, tuple):
            return []
        if isinstance(of.head, Named):
            return [of.head.methods[name]] if name in of.head.methods else []
        for bound in of.args if of.head == "impl" else self.function.generics.get(of.head, []):
            trait = self.here(bound)
            if trait and isinstance(trait.head, Named) and name in trait.head.methods:
                whole = trait.head.methods[name]
                return [it.get(name, whole) for it in trait.head.implementations] or [whole]
        return []

    def called(self, function: Function, of: Optional[Type]) -> Optional[Type]:
        """Notes a call, on a receiver of this type, and gives the type of its result."""
        self.calls.append(function)
        forms = function.self_type.args if function.self_type and of else ()
        given: Fields = {str(form.head): it for form, it in zip(forms, of.args if of else ()) if form and it}
        return replaced(self.type_in(function, function.result), given)

    def method(self, of: Optional[Type], name: str, asked: Types) -> Optional[Type]:
        found = self.methods(of, name)
        if found or not (of or asked):
            self.arguments(None)
            if not found and name in self.sources.method_names:
                self.left_out.append(name)
            return [self.called(it, of) for it in found][0] if found else None
        return self.standard(of or Type("?"), name, asked)

    def standard(self, of: Type, name: str, asked: Types) -> Optional[Type]:
        """What a method of the standard library gives: what has the same items, but for these."""
        inner = of.args[1] if of.head in MAPS and len(of.args) > 1 and name in VALUE else item(of)
        args = self.arguments(inner)
        given = item(args[-1]) if args and args[-1] and args[-1].head == "fn" else None
        if name in ITEM:
            return inner
        if name in GIVEN:
            return given or args[0]
        if name == "collect" and asked:
            return Type("Result", (self.here(asked[0]),))
        if name == "split_at":
            return Type("()", (of, of))
        made = {
            "map": given,
            "filter_map": item(given),
            "flat_map": item(given),
            "enumerate": Type("()", (None, inner)),
            "zip": Type("()", (inner, item(args[0] if args else None))),
            "split_first": Type("()", (inner, of)),
            "collect": of,
            "to_vec": of,
            "entry": Type("Some", (inner,)),
        }
        is_map = of.head in MAPS
        return Type("Some" if is_map else of.head, (made.get(name, inner), *of.args[1:])) if is_map or name in made else of
