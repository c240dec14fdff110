"""Holds typed queries and answers to the lines of the stored cases, and runs the example of docs/LIBRARY.md.

    SYMQ_LIBRARY=lib/libsymq.so python3 -m unittest discover bindings/python/tests
"""
import contextlib
import dataclasses
import io
import json
import os
import re
import unittest

import test_symq
from test_symq import SERVED, STRICT, symq


def asked_forms():
    """Returns the forms of the case that asks a query of each, except its last line, which has a form that is none."""
    [case] = [it for it in SERVED if it.name == "cases/each_form_of_query"]
    return list(dict.fromkeys(json.loads(line)[0] for line in case.given.splitlines()[:-1]))


# the last one has another query for its argument
FORMS = [*asked_forms(), "inputs"]
REFERENCES = {"id": symq.IdReference, "qualified": symq.QualifiedReference, "import": symq.ImportReference}
# answers that are one value under a key; those of the other forms are objects
KEYS = {"resolve": "entries", **{it: it for it in FORMS if it not in ("exports", "resolve")}}


def typed(form, *given):
    """Returns the typed query of a line, whose reference is a list."""
    if form == "resolve":
        kind, *parts = given[1]
        return symq.resolve(given[0], REFERENCES[kind](*(tuple(it) if isinstance(it, list) else it for it in parts)))
    if form == "inputs":
        return symq.inputs(typed(*given[0]))
    return getattr(symq, form)(*given)


def of_form(line):
    """Returns the form and the arguments of a query line that a function of the package makes byte for byte; None for any other."""
    try:
        form, *given = json.loads(line)
        is_form = form in FORMS and (form != "inputs" or given[0][0] in FORMS[:-1])
        return (form, *given) if is_form and typed(form, *given).line() == line + b"\n" else None
    except (ValueError, TypeError, LookupError, AttributeError):
        return None


def plain(value):
    """Returns the JSON value of a typed one."""
    if hasattr(value, "to_json"):
        return value.to_json()
    if isinstance(value, symq.Dependency):
        return [value.reference.to_json(), value.namespace]
    if dataclasses.is_dataclass(value):
        fields = {it.name: getattr(value, it.name) for it in dataclasses.fields(value)}
        return {key: plain(it) for key, it in fields.items() if it is not None}
    return [plain(it) for it in value] if isinstance(value, tuple) else value


def as_answer(form, found):
    """Returns the JSON value of the answer that a typed one stands for."""
    if isinstance(found, symq.Fault):
        return None if found.reason == "unknown module" else {"fault": found.reason}
    if form == "module" and found is None:
        return None
    return {KEYS[form]: plain(found)} if form in KEYS else plain(found)


def asked():
    """Yields each stored case with its typed queries: form, query and answer line."""
    for case in SERVED:
        pairs = zip(map(of_form, case.given.split(b"\n")), case.want.output.split(b"\n"))
        yield case, [(it[0], typed(*it), line) for it, line in pairs if it]


class Typed(unittest.TestCase):
    def test_each_form_is_asked(self):
        counts = {it: sum(form == it for _, queries in asked() for form, _, _ in queries) for it in FORMS}
        self.assertGreater(min(counts.values()), 9, counts)
        answers = b"\n".join(line for _, queries in asked() for _, _, line in queries).decode()
        for part in ('"next"', '"star"', '"import_type"', '"id"', '"qualified"', '"import"', '"shared"', '"fault":"unknown symbol"', '"scope"', "\nnull\n", '"redirect"',
                     '"absent"'):
            self.assertIn(part, answers)

    def test_answers_lose_nothing(self):
        for case, queries in asked():
            with self.subTest(case.name):
                for form, query, line in queries:
                    self.assertEqual(as_answer(form, query.read(line)), json.loads(line))

    def test_answers_are_those_of_the_lines(self):
        for case, queries in asked():
            with self.subTest(case.name), symq.Session(case.graph, strict=case.words == STRICT) as session:
                found = session.query_all([query for _, query, _ in queries])
                self.assertEqual([as_answer(form, it) for (form, _, _), it in zip(queries, found)], [json.loads(line) for _, _, line in queries])
                again = symq.query(case.graph, [query for _, query, _ in queries], strict=case.words == STRICT)
                self.assertEqual(list(map(str, again)), list(map(str, found)))

    def test_a_fault_is_raised_for_one_query_and_listed_for_several(self):
        with symq.Session(b"{}") as session:
            self.assertIsNone(session.query(symq.module("file:///a.ts")))
            for query, reason in [(symq.exports("file:///a.ts"), "unknown module"), (symq.name("a", -1), "bad query")]:
                with self.assertRaises(symq.Fault) as found:
                    session.query(query)
                self.assertEqual(found.exception.reason, reason)
            self.assertEqual([str(it) for it in session.query_all([symq.names("a"), symq.name("a", -1)])], ["unknown module", "bad query"])
            self.assertEqual(session.query_all([]), [])


class Documents(unittest.TestCase):
    def test_the_example_prints_what_it_says(self):
        with open(os.path.join(test_symq.TOP, "docs", "LIBRARY.md"), encoding="utf-8") as file:
            [block] = re.findall(r"^  ```python\n(.*?)^  ```", file.read(), re.M | re.S)
        text, printed = re.sub(r"^  ", "", block, flags=re.M), io.StringIO()
        with contextlib.redirect_stdout(printed), moved(test_symq.TOP):
            exec(compile(text, "LIBRARY.md", "exec"), {})
        self.assertEqual(printed.getvalue().splitlines(), re.findall(r"print\(.*\)  # (.*)$", text, re.M))
        self.assertGreater(len(printed.getvalue()), 0)


@contextlib.contextmanager
def moved(folder):
    """Works in a directory. Python 3.11 has contextlib.chdir for that."""
    before = os.getcwd()
    os.chdir(folder)
    try:
        yield
    finally:
        os.chdir(before)


if __name__ == "__main__":
    unittest.main()
