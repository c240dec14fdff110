"""The symbols of the modules of a graph, by symq's proved library.

    import symq

    symq.answer(graph, b'["exports","file:///a.ts"]\\n')      the answers to query lines, as bytes

    with symq.Session(graph) as session:                     the same, over a graph that is read once
        session.ask(b'["exports","file:///a.ts"]\\n')
        session.query(symq.exports("file:///a.ts"))          the answer as a dataclass
        session.put(module)                                  then answers with this module in place, with its resolutions

`graph` is the text of a graph as bytes. `strict=True` answers by strict rules. If there are no answers, `Stop` is raised, with the program's status and line.
For each form of query the function of its name makes one. A query without an answer has a `Fault`.
"""
from . import _typed
from ._calls import Session, Stop, answer, query
from ._typed import *

__all__ = ["Session", "Stop", "answer", "query"]
__all__ += _typed.__all__
