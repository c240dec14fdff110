"""Declares the library's calls, as bindings/c/symq.h has them."""
import ctypes
import os
import struct
import threading
from types import TracebackType
from typing import Callable, List, Optional, Sequence, Type, TypeVar, Union

from ._typed import Fault, Query, read_all

T = TypeVar("T")

_HERE = os.path.dirname(os.path.abspath(__file__))
_ROOM = 1 << 16


class _Kept(ctypes.Structure):
    """`struct symq_session`. A session whose fields are all 0 is closed."""

    _fields_ = [("is_open", ctypes.c_bool), ("kept", ctypes.c_void_p)]


def _library() -> ctypes.CDLL:
    """Returns the library: the one that SYMQ_LIBRARY names, or the one in this package."""
    found = ctypes.CDLL(os.environ.get("SYMQ_LIBRARY") or os.path.join(_HERE, "libsymq.so"))
    text, out = [ctypes.c_char_p, ctypes.c_size_t], [ctypes.c_void_p, ctypes.c_size_t, ctypes.POINTER(ctypes.c_size_t)]
    keys, kept = [ctypes.c_uint64, ctypes.c_uint64], ctypes.POINTER(_Kept)
    answers, opens = (found.symq_keyed_answer, found.symq_strict_keyed_answer), (found.symq_keyed_open, found.symq_strict_keyed_open)
    for call in answers:
        call.argtypes = [*keys, *text, *text, *out]
    for call in opens:
        call.argtypes = [*keys, *text, kept, *out]
    found.symq_ask.argtypes = found.symq_put.argtypes = [kept, *text, *out]
    for call in (*answers, *opens, found.symq_ask, found.symq_put):
        call.restype = ctypes.c_uint8
    found.symq_close.argtypes, found.symq_close.restype = [kept], None
    return found


_LIBRARY = _library()
# the keys that maps hash with, which no writer of a graph knows
_KEYS = struct.unpack("=2Q", os.urandom(16))


class Stop(Exception):
    """The reason why there are no answers: the status of the program, and its line.

    1: the session is closed. 4: the text is no graph, or to be put no module. 5: the graph or module is refused. 7: an allocation failed.
    """

    def __init__(self, status: int, line: str) -> None:
        super().__init__(line)
        self.status = status
        self.line = line


def _told(call: Callable[..., int], *given: object) -> bytes:
    """Returns what a call writes with status 0. The call is repeated if the buffer was too small."""
    room, needed = _ROOM, ctypes.c_size_t()
    while True:
        out = ctypes.create_string_buffer(room)
        status = call(*given, out, room, needed)
        if needed.value <= room:
            break
        room = needed.value
    told = out.raw[: needed.value]
    if status:
        raise Stop(status, told.decode("utf-8", "replace"))
    return told


def answer(graph: bytes, lines: bytes, *, strict: bool = False) -> bytes:
    """Returns the answers to query lines over the text of a graph, each with its line end; by strict rules if `strict` is set.

    The graph is read anew at each call, and possibly twice if the answers are long. Other threads run meanwhile.
    """
    call = _LIBRARY.symq_strict_keyed_answer if strict else _LIBRARY.symq_keyed_answer
    return _told(call, *_KEYS, graph, len(graph), lines, len(lines))


def query(graph: bytes, queries: Sequence[Query[T]], *, strict: bool = False) -> List[Union[T, Fault]]:
    """Returns the answers to queries over the text of a graph, as `answer` does; a `Fault` for each query without one."""
    return read_all(queries, answer(graph, b"".join(it.line() for it in queries), strict=strict))


class Session:
    """The graph of a text, which is read once and can be queried repeatedly; by strict rules if `strict` is set.

        with symq.Session(graph) as session:
            session.ask(b'["exports","file:///a.ts"]\\n')

    `Stop` is raised if the graph isn't accepted. Any thread may call, one at a time: the others wait.
    """

    def __init__(self, graph: bytes, *, strict: bool = False) -> None:
        self._kept = _Kept()
        self._lock = threading.Lock()
        call = _LIBRARY.symq_strict_keyed_open if strict else _LIBRARY.symq_keyed_open
        _told(call, *_KEYS, graph, len(graph), self._kept)

    def ask(self, lines: bytes) -> bytes:
        """Returns the answers to query lines, each with its line end. Raises `Stop` with status 1 if the session is closed."""
        with self._lock:
            return _told(_LIBRARY.symq_ask, self._kept, lines, len(lines))

    def put(self, module: bytes) -> None:
        """Puts a module in place of the one of its specifier, or after all. The session then answers as one opened anew.

        `module` is the text of a graph with this module alone, its resolutions, and no redirect. They replace all resolutions of that module.
        `Stop` is raised if the module isn't accepted. The session is then as before.
        """
        with self._lock:
            _told(_LIBRARY.symq_put, self._kept, module, len(module))

    def query(self, query: Query[T]) -> T:
        """Returns the answer to a query. Raises `Fault` if there is none."""
        [found] = self.query_all([query])
        if isinstance(found, Fault):
            raise found
        return found

    def query_all(self, queries: Sequence[Query[T]]) -> List[Union[T, Fault]]:
        """Returns the answers to queries in one call; a `Fault` for each query without one."""
        return read_all(queries, self.ask(b"".join(it.line() for it in queries)))

    def close(self) -> None:
        """Frees the graph. A closed session stays as it is."""
        with self._lock:
            _LIBRARY.symq_close(self._kept)

    def __enter__(self) -> "Session":
        return self

    def __exit__(self, kind: Optional[Type[BaseException]], error: Optional[BaseException], at: Optional[TracebackType]) -> None:
        self.close()

    def __del__(self) -> None:
        if hasattr(self, "_lock"):
            self.close()
