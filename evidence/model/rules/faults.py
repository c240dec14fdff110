"""The reasons why a graph is refused, and why a query has no answer."""


class FormatFault(Exception):
    """The text is no JSON, or its value is no graph."""

    def __init__(self, reason: str):
        Exception.__init__(self, reason)
        self.reason = reason

    def line(self) -> str:
        return 'symq: not a graph: ' + self.reason


NOT_JSON, BAD_FORM = 'json', 'form'


class GraphFault(Exception):
    """A refused graph: the number of the fault and what it names. That of a tree is 7, a specifier, and the tree's own fault."""

    def __init__(self, *payload):
        Exception.__init__(self, *payload)
        self.payload = payload

    def line(self) -> str:
        return 'symq: graph refused: ' + ' '.join(str(part) for part in self.payload)


TOO_MANY_MODULES, TOO_MANY_SYMBOLS, UNKNOWN_MODULE, UNKNOWN_SYMBOL = (
    'too many modules', 'too many symbols', 'unknown module', 'unknown symbol')


class SymbolsFault(Exception):
    """A call without an answer: one of the four reasons, and with too many symbols the module's specifier."""

    def __init__(self, reason: str, specifier: 'str | None' = None):
        Exception.__init__(self, reason, specifier)
        self.reason, self.specifier = reason, specifier

    def line(self) -> str:
        return '{"fault":"%s"}' % self.reason


class BadQuery(Exception):
    """A line is no query."""


BAD_QUERY_LINE = '{"fault":"bad query"}'
