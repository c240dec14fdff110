"""Runs the stored cases of tests/cases by the call and by a session, compares them with the program's output, and tests the needs of a host.

    SYMQ_LIBRARY=lib/libsymq.so python3 -m unittest discover bindings/python/tests
"""
import json
import os
import re
import sys
import threading
import unittest

PACKAGE = os.path.dirname(os.path.dirname(os.path.abspath(__file__)))
TOP = os.path.dirname(os.path.dirname(PACKAGE))
sys.path[:0] = [PACKAGE, os.path.join(TOP, "tools")]

import symq  # noqa: E402
from run_cases import all_cases  # noqa: E402

STRICT = ["--strict", "graph.json"]
CASES = [it for it in all_cases()[0] if it.program == "symq" and it.words in (None, STRICT) and it.graph is not None]
SERVED = [it for it in CASES if it.want.status == 0 and it.given]
REFUSED = [it for it in CASES if it.want.status != 0]


def by_call(case):
    """Returns the status, the output and the error line of the program, by one call."""
    try:
        return 0, symq.answer(case.graph, case.given, strict=case.words == STRICT), b""
    except symq.Stop as stop:
        return stop.status, b"", stop.line.encode() + b"\n"


def by_session(case):
    """Returns the same by a session, which answers all lines at once, and then each alone."""
    try:
        with symq.Session(case.graph, strict=case.words == STRICT) as session:
            answers = session.ask(case.given)
            parts = b"".join(session.ask(it) for it in re.findall(rb"[^\n]*\n|[^\n]+", case.given))
            return 0, answers if parts == answers else parts, b""
    except symq.Stop as stop:
        return stop.status, b"", stop.line.encode() + b"\n"


def tree_of(*nodes):
    return {"nodes": [{"kind": "Program", "range": [0, 1], "body": [1]}, *({"range": [0, 1], **it} for it in nodes)]}


def passed_on(count):
    """Returns the text of a graph of modules in a row, each of which re-exports a name from the next one; the last declares it."""
    name, last = {"kind": "Ident", "sym": ["x", 1]}, "m%d" % (count - 1)
    texts = [("m%d" % n, tree_of({"kind": "ExportNamed", "specifiers": [2], "src": "m%d" % (n + 1)},
                                 {"kind": "ExportSpecifier", "orig": 3}, name)) for n in range(count - 1)]
    texts.append((last, tree_of({"kind": "ExportDecl", "decl": 2}, {"kind": "VarDecl", "decls": [3]},
                                {"kind": "VarDeclarator", "name": 4}, {**name, "kind": "BindingIdent"})))
    modules = [{"specifier": it, "kind": "esm", "text": " ", "tree": tree} for it, tree in texts]
    return json.dumps({"modules": modules, "resolutions": [["m%d" % n, *["m%d" % (n + 1)] * 2] for n in range(count - 1)]}).encode()


def by_four_threads(work):
    """Runs the work in four threads at once."""
    threads = [threading.Thread(target=work) for _ in range(4)]
    for it in threads:
        it.start()
    for it in threads:
        it.join()


class Cases(unittest.TestCase):
    def test_there_are_cases(self):
        self.assertGreater(len(SERVED), 50)
        self.assertEqual({it.want.status for it in REFUSED}, {4, 5})
        self.assertTrue(any(it.words == STRICT for it in SERVED))

    def test_answers_are_the_programs(self):
        for case in CASES:
            with self.subTest(case.name):
                self.assertEqual(by_call(case), tuple(case.want))


    def test_a_sessions_answers_are_the_programs(self):
        for case in CASES:
            with self.subTest(case.name):
                self.assertEqual(by_session(case), tuple(case.want))


class Sessions(unittest.TestCase):
    def test_a_closed_one_is_told(self):
        session = symq.Session(b"{}")
        self.assertEqual(session.ask(b'["module","a"]\n'), b"null\n")
        for _ in range(2):
            session.close()
        with self.assertRaises(symq.Stop) as found:
            session.ask(b'["module","a"]\n')
        self.assertEqual((found.exception.status, found.exception.line), (1, "symq: the session is closed"))

    def test_many_at_once(self):
        sessions = [(it, symq.Session(it.graph, strict=it.words == STRICT)) for it in SERVED]
        for case, session in sessions + sessions[::-1]:
            self.assertEqual(session.ask(case.given), case.want.output)

    def test_threads_ask_one(self):
        case, wrong = max(SERVED, key=lambda it: len(it.graph)), []
        session = symq.Session(case.graph, strict=case.words == STRICT)
        by_four_threads(lambda: wrong.extend(1 for _ in range(5) if session.ask(case.given) != case.want.output))
        self.assertEqual(wrong, [])

    def test_long_answers(self):
        with symq.Session(b"{}") as session:
            self.assertEqual(session.ask(b"x\n" * 20000), b'{"fault":"bad query"}\n' * 20000)


class Hosts(unittest.TestCase):
    def test_four_threads_at_once(self):
        wrong = []
        by_four_threads(lambda: wrong.extend(it.name for it in SERVED if by_call(it) != tuple(it.want)))
        self.assertEqual(wrong, [])

    def test_long_answers_and_lines(self):
        lines = b'["module","' + b"a" * 300000 + b'"]\n'
        self.assertEqual(symq.answer(b"{}", lines + b"x\n" * 20000),
                         b"null\n" + b'{"fault":"bad query"}\n' * 20000)

    def test_a_small_stack_suffices_for_long_ways(self):
        graph, told = passed_on(20000), []
        before = threading.stack_size(256 << 10)
        try:
            thread = threading.Thread(target=lambda: told.append(symq.answer(graph, b'["definitions","m0",1]\n["paths","m0",1]\n')))
            thread.start()
        finally:
            threading.stack_size(before)
        thread.join()
        definitions, paths = told[0].splitlines()
        self.assertEqual([it["module"] for it in json.loads(definitions)["definitions"]], ["m19999"])
        self.assertEqual(paths.count(b'"module"'), 20000)

    def test_a_long_error_line(self):
        name = "a" * 100000
        module = '{"specifier":"%s","kind":"external"}' % name
        graph = ('{"modules":[%s,%s]}' % (module, module)).encode()
        with self.assertRaises(symq.Stop) as found:
            symq.answer(graph, b"")
        self.assertEqual((found.exception.status, found.exception.line), (5, "symq: graph refused: 3 " + name))


if __name__ == "__main__":
    unittest.main()
