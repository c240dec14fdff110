"""Defines queries and answers as dataclasses. docs/QUERIES.md describes what each means."""
import json
from dataclasses import dataclass
from typing import Any, Callable, Dict, Generic, List, Optional, Sequence, Tuple, TypeVar, Union

__all__ = [
    "Definition", "Dependency", "Entry", "Export", "Exports", "Fault", "IdReference", "ImportReference", "Input", "Leaf", "Link", "Owner",
    "QualifiedReference", "Query", "Reference", "Shared", "Unresolved", "WholeModule", "definitions", "deps", "exports", "inputs", "leaves",
    "module", "name", "names", "paths", "resolve", "symbol",
]

T = TypeVar("T")
Pair = Tuple[str, str]


class Fault(Exception):
    """The reason why one query has no answer: `unknown module`, `unknown symbol` or `bad query`. Other queries are answered."""

    def __init__(self, reason: str) -> None:
        super().__init__(reason)
        self.reason = reason


@dataclass(frozen=True)
class IdReference:
    """A name in a scope."""

    name: str
    scope: int

    def to_json(self) -> List[Any]:
        return ["id", self.name, self.scope]


@dataclass(frozen=True)
class QualifiedReference:
    """A name with qualifiers, as `a.b`."""

    name: str
    scope: int
    parts: Tuple[str, ...]

    def to_json(self) -> List[Any]:
        return ["qualified", self.name, self.scope, list(self.parts)]


@dataclass(frozen=True)
class ImportReference:
    """A name of another module, or without parts all of it."""

    specifier: str
    parts: Tuple[str, ...] = ()

    def to_json(self) -> List[Any]:
        return ["import", self.specifier, list(self.parts)]


Reference = Union[IdReference, QualifiedReference, ImportReference]


@dataclass(frozen=True)
class Export:
    """An exported name, the module that exports it locally, its symbol there, and each `export *` on the way."""

    name: str
    module: str
    symbol: int
    chain: Tuple[Pair, ...]


@dataclass(frozen=True)
class Owner:
    """A module that exports a shared name locally."""

    module: str
    symbol: int
    chain: Tuple[Pair, ...]


@dataclass(frozen=True)
class Shared:
    """A name that several modules export."""

    name: str
    owners: Tuple[Owner, ...]


@dataclass(frozen=True)
class Exports:
    """The exports of a module, and each `export *` that is unresolved. `shared` is `None` by Deno's rules."""

    exports: Tuple[Export, ...]
    unresolved: Tuple[Pair, ...]
    shared: Optional[Tuple[Shared, ...]]


@dataclass(frozen=True)
class Dependency:
    """A reference of a declaration, and whether it is to a `type`, to a `value` or to `both`."""

    reference: Reference
    namespace: str


@dataclass(frozen=True)
class Definition:
    """The end of a path: a definition, from byte `start` to before byte `end`. `star` is the specifier of `import * as a`."""

    module: str
    symbol: int
    decl: Tuple[int, int]
    start: int
    end: int
    star: Optional[str] = None


@dataclass(frozen=True)
class Unresolved:
    """The end of a path without a definition: of the kind `specifier`, `part` or `id`, which has a scope."""

    kind: str
    module: str
    name: str
    parts: Tuple[str, ...]
    scope: Optional[int] = None


@dataclass(frozen=True)
class WholeModule:
    """The end of a reference without qualifiers to another module."""

    import_type: str


@dataclass(frozen=True)
class Link:
    """A declaration that refers on, and the paths after it."""

    module: str
    symbol: int
    decl: Tuple[int, int]
    parts: Tuple[str, ...]
    next: Tuple["Entry", ...]


@dataclass(frozen=True)
class Input:
    """A specifier that the answer to a query rests on. `found` is `module`, `absent`, or `redirect`, to `module`."""

    specifier: str
    found: str
    module: Optional[str] = None


Leaf = Union[Definition, Unresolved, WholeModule]
Entry = Union[Link, Definition, Unresolved, WholeModule]


def _pairs(given: List[List[str]]) -> Tuple[Pair, ...]:
    return tuple((module, specifier) for module, specifier in given)


def _owner(given: Dict[str, Any]) -> Owner:
    return Owner(given["module"], given["symbol"], _pairs(given["chain"]))


def _exports(given: Dict[str, Any]) -> Exports:
    exports = tuple(Export(it["name"], it["module"], it["symbol"], _pairs(it["chain"])) for it in given["exports"])
    shared = given.get("shared")
    told = None if shared is None else tuple(Shared(it["name"], tuple(map(_owner, it["owners"]))) for it in shared)
    return Exports(exports, _pairs(given["unresolved"]), told)


def _reference(given: List[Any]) -> Reference:
    if given[0] == "id":
        return IdReference(given[1], given[2])
    if given[0] == "qualified":
        return QualifiedReference(given[1], given[2], tuple(given[3]))
    return ImportReference(given[1], tuple(given[2]))


def _declarations(given: List[Any]) -> Tuple[Tuple[Dependency, ...], ...]:
    return tuple(tuple(Dependency(_reference(reference), namespace) for reference, namespace in it) for it in given)


def _entry(given: Dict[str, Any]) -> Entry:
    if "import_type" in given:
        return WholeModule(given["import_type"])
    if "kind" in given:
        return Unresolved(given["kind"], given["module"], given["name"], tuple(given["parts"]), given.get("scope"))
    at = (given["module"], given["symbol"], (given["decl"][0], given["decl"][1]))
    if "next" in given:
        return Link(*at, tuple(given["parts"]), tuple(map(_entry, given["next"])))
    return Definition(*at, given["start"], given["end"], given.get("star"))


def _entries(given: List[Any]) -> Tuple[Any, ...]:
    return tuple(map(_entry, given))


def _inputs(given: List[Dict[str, str]]) -> Tuple[Input, ...]:
    return tuple(Input(it["specifier"], it["found"], it.get("module")) for it in given)


def _names(given: List[List[str]]) -> Tuple[Tuple[str, ...], ...]:
    return tuple(map(tuple, given))


def _same(given: Any) -> Any:
    return given


@dataclass(frozen=True)
class Query(Generic[T]):
    """A query, made by one of the functions below, whose answer is a `T`."""

    form: Tuple[Any, ...]
    _read: Callable[[Any], T]
    _is_optional: bool = False

    def line(self) -> bytes:
        """Returns the line that `symq` reads."""
        return json.dumps(self.form, separators=(",", ":")).encode() + b"\n"

    def read(self, line: bytes) -> Union[T, Fault]:
        """Returns the answer that a line of `symq` is."""
        given = json.loads(line)
        if given is None:
            return self._read(None) if self._is_optional else Fault("unknown module")
        return Fault(given["fault"]) if "fault" in given else self._read(given)


def _value(key: str, read: Callable[[Any], T]) -> Callable[[Any], T]:
    return lambda given: read(given[key])


def module(specifier: str) -> Query[Optional[str]]:
    """Resolves a specifier to a module; to `None` if there is none with symbols. Any other query then has the fault `unknown module`."""
    return Query(("module", specifier), lambda given: given and given["module"], True)


def exports(specifier: str) -> Query[Exports]:
    """Lists what a module exports."""
    return Query(("exports", specifier), _exports)


def names(specifier: str) -> Query[Tuple[Tuple[str, ...], ...]]:
    """Lists the exported names, each followed by its members as `(name, member)`."""
    return Query(("names", specifier), _value("names", _names))


def symbol(specifier: str, name: str, scope: int) -> Query[Optional[int]]:
    """Finds the number of a symbol; `None` for what is no symbol."""
    return Query(("symbol", specifier, name, scope), _value("symbol", _same))


def name(specifier: str, symbol: int) -> Query[Optional[str]]:
    """Returns the fully qualified name of a symbol; `None` if it has none."""
    return Query(("name", specifier, symbol), _value("name", _same))


def deps(specifier: str, symbol: int, mode: str = "all") -> Query[Tuple[Tuple[Dependency, ...], ...]]:
    """Lists the references of each declaration of a symbol; with the mode `types` those outside of expressions."""
    return Query(("deps", specifier, symbol, mode), _value("deps", _declarations))


def paths(specifier: str, symbol: int) -> Query[Tuple[Entry, ...]]:
    """Returns the definition paths of a symbol."""
    return Query(("paths", specifier, symbol), _value("paths", _entries))


def definitions(specifier: str, symbol: int) -> Query[Tuple[Definition, ...]]:
    """Returns the definitions at the ends of the paths."""
    return Query(("definitions", specifier, symbol), _value("definitions", _entries))


def leaves(specifier: str, symbol: int) -> Query[Tuple[Leaf, ...]]:
    """Returns all ends of the paths."""
    return Query(("leaves", specifier, symbol), _value("leaves", _entries))


def resolve(specifier: str, reference: Reference) -> Query[Tuple[Entry, ...]]:
    """Returns the definition paths of a reference in a module."""
    return Query(("resolve", specifier, reference.to_json()), _value("entries", _entries))


def inputs(query: Query[Any]) -> Query[Tuple[Input, ...]]:
    """Lists the specifiers that the answer to a query rests on."""
    return Query(("inputs", query.form), _value("inputs", _inputs))


def read_all(queries: Sequence[Query[T]], lines: bytes) -> List[Union[T, Fault]]:
    """Returns the answers that lines of `symq` are."""
    return [query.read(line) for query, line in zip(queries, lines.split(b"\n"))]
