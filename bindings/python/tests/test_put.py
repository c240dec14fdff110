"""Puts modules into sessions, and compares the answers with those of a session that is opened anew over the graph with the module in place.

    SYMQ_LIBRARY=lib/libsymq.so python3 -m unittest discover bindings/python/tests        SYMQ_SEEDS=20000 takes so many random graphs
"""
import json
import os
import random
import sys
import unittest
from collections import Counter

PACKAGE = os.path.dirname(os.path.dirname(os.path.abspath(__file__)))
TOP = os.path.dirname(os.path.dirname(PACKAGE))
sys.path[:0] = [PACKAGE, os.path.join(TOP, "tools"), os.path.join(TOP, "evidence", "model")]

import symq  # noqa: E402
from graphs.cases import case_of_seed  # noqa: E402
from graphs.texts import compact  # noqa: E402
from run_cases import all_cases  # noqa: E402

SEEDS = int(os.environ.get("SYMQ_SEEDS", "300"))
FORM = (4, "symq: not a graph: form")


def external(specifier):
    return {"specifier": specifier, "kind": "external"}


def text_of(module, rows=(), **more):
    """Returns the text of a module with its resolutions."""
    return json.dumps({"modules": [module], "resolutions": list(rows), **more}).encode()


def with_module(value, module, rows):
    """Returns the graph with the module in place of the one of its specifier, or after all, and these resolutions in place of that module's."""
    modules, name = list(value["modules"]), module["specifier"]
    places = [at for at, it in enumerate(modules) if it["specifier"] == name]
    if places:
        modules[places[0]] = module
    else:
        modules.append(module)
    return {**value, "modules": modules, "resolutions": [it for it in value["resolutions"] if it[0] != name] + rows}


def stopped(call):
    """Returns the status and the line with which a call stops; None if it doesn't."""
    try:
        call()
    except symq.Stop as stop:
        return stop.status, stop.line
    return None


def modules_of(case):
    """Returns the modules of a graph that may have faults, so far as they are objects."""
    found = (case.value or {}).get("modules")
    return [it for it in found if isinstance(it, dict)] if isinstance(found, list) else []


def module_to_put(rng, value, others):
    """Returns a module that is put into a graph, and its resolutions: another one, also with a fault, under any specifier."""
    names = [it["specifier"] for it in value["modules"]] + [it[-1] for it in value["resolutions"]] + ["new"]
    name = rng.choice(names)
    module = dict(rng.choice(others + value["modules"]), specifier=name)
    texts = [it[1] for it in value["resolutions"]] + ["./new"]
    rows = [it for it in value["resolutions"] if it[0] == name and rng.random() < 0.7]
    rows += [[name, rng.choice(texts), rng.choice(names)] for _ in range(rng.choice([0, 1, 2]))]
    return module, rows if rng.random() < 0.1 else list({it[1]: it for it in rows}.values())


class Random(unittest.TestCase):
    def put_one(self, rng, session, value, lines, strict, others, counts):
        """Puts a module, and returns the graph of the session after that."""
        module, rows = module_to_put(rng, value, others)
        before, put = session.ask(lines), with_module(value, module, rows)
        told = stopped(lambda: session.put(text_of(module, rows)))
        if told:
            counts["refused %d" % told[0]] += 1
            self.assertEqual(told, stopped(lambda: symq.Session(compact(put), strict=strict)))
            self.assertEqual(session.ask(lines), before)
            return value
        with symq.Session(compact(put), strict=strict) as anew:
            after = session.ask(lines)
            self.assertEqual(after, anew.ask(lines))
        counts["put"] += 1
        counts["differ"] += after != before
        return put

    def test_puts_are_openings_anew(self):
        counts = Counter()
        for seed in range(SEEDS):
            case, rng = case_of_seed(seed, True), random.Random("put %d" % seed)
            others = modules_of(case_of_seed(seed + 1)) or [external("a")]
            value = {"modules": [], "resolutions": [], **{key: it or [] for key, it in case.value.items()}}
            lines = b"\n".join(case.lines) + b"\n"
            with self.subTest(seed), symq.Session(compact(value), strict=case.strict) as session:
                for _ in range(3):
                    value = self.put_one(rng, session, value, lines, case.strict, others, counts)
        self.assertGreater(counts["differ"], SEEDS)
        self.assertGreater(counts["refused 5"], SEEDS // 20)
        self.assertGreater(counts["refused 4"], 0)


class Refusals(unittest.TestCase):
    def refused(self, text, status, line):
        """Checks that a text isn't put, for this reason, and that the session is then as before."""
        graph = {"modules": [external("a"), {"specifier": "b", "kind": "json", "text": "1"}], "resolutions": [["a", "./b", "b"]]}
        asked = b'["module","a"]\n["exports","b"]\n["inputs",["exports","a"]]\n'
        with symq.Session(json.dumps(graph).encode()) as session:
            before = session.ask(asked)
            self.assertEqual(stopped(lambda: session.put(text)), (status, line))
            self.assertEqual(session.ask(asked), before)

    def test_no_json(self):
        self.refused(b"{", 4, "symq: not a graph: json")

    def test_no_graph_of_one_module(self):
        for text in (b"[]", b"{}", b'{"modules":[{}]}', json.dumps(external("b")).encode(), b'{"modules":[]}',
                     json.dumps({"modules": [external("b"), external("c")]}).encode(),
                     json.dumps({"modules": [external("b"), external("b")]}).encode(),
                     text_of(external("b"), redirects=[["x", "b"]]), text_of(external("b"), [["a", "./b", "b"]]),
                     text_of(external("b"), [["b", "./a", "a"], ["a", "./b", "b"]])):
            with self.subTest(text):
                self.refused(text, *FORM)

    def test_a_fault(self):
        self.refused(text_of(external("b"), [["b", "./a", "a"], ["b", "./c", "a"], ["b", "./a", "b"]]), 5, "symq: graph refused: 6 b ./a")
        tree = {"nodes": [{"kind": "Program", "range": [0, 1], "body": [7]}]}
        self.refused(text_of({"specifier": "b", "kind": "esm", "text": " ", "tree": tree}), 5, "symq: graph refused: 7 b 3 0")

    def test_a_long_line(self):
        name = "a" * 100000
        self.refused(text_of(external(name), [[name, "./a", "a"]] * 2), 5, "symq: graph refused: 6 %s ./a" % name)

    def test_a_closed_session(self):
        session = symq.Session(b"{}")
        session.close()
        self.assertEqual(stopped(lambda: session.put(text_of(external("a")))), (1, "symq: the session is closed"))
        self.assertEqual(stopped(lambda: session.ask(b"")), (1, "symq: the session is closed"))


class Puts(unittest.TestCase):
    def test_answers_are_the_programs(self):
        count = 0
        for case in all_cases()[0]:
            if case.program != "symq" or case.words not in (None, ["--strict", "graph.json"]) or not case.given or case.want.status:
                continue
            value = json.loads(case.graph)
            for at, module in enumerate(value.get("modules") or []):
                name, rows = module["specifier"], value.get("resolutions") or []
                without = {**value, "modules": [*value["modules"][:at], external(name), *value["modules"][at + 1:]],
                           "resolutions": [it for it in rows if it[0] != name] + [[name, "./gone", name]]}
                with self.subTest((case.name, name)), symq.Session(json.dumps(without).encode(), strict=bool(case.words)) as session:
                    session.ask(case.given)
                    session.put(text_of(module, [it for it in rows if it[0] == name]))
                    self.assertEqual(session.ask(case.given), case.want.output)
                count += 1
        self.assertGreater(count, 100)

    def test_a_module_that_was_absent_appears(self):
        with symq.Session(b'{"redirects":[["r","a"]]}') as session:
            self.assertEqual(session.ask(b'["module","r"]\n'), b"null\n")
            session.put(text_of({"specifier": "a", "kind": "json", "text": "1"}))
            self.assertEqual(session.ask(b'["module","r"]\n'), b'{"module":"a"}\n')

    def test_resolutions_are_replaced(self):
        def star(*sources):
            nodes = [{"kind": "ExportAll", "range": [0, 1], "src": it} for it in sources]
            return {"nodes": [{"kind": "Program", "range": [0, 1], "body": list(range(1, len(nodes) + 1))}, *nodes]}

        module = {"specifier": "a", "kind": "esm", "text": " ", "tree": star("./b", "./c")}
        rows = [["a", "./b", "b"], ["a", "./c", "c"]]
        json_modules = [{"specifier": it, "kind": "json", "text": "1"} for it in "bc"]
        graph = json.dumps({"modules": [module, *json_modules], "resolutions": rows}).encode()
        asked = b'["inputs",["exports","a"]]\n'
        with symq.Session(graph) as session:
            self.assertEqual([it["specifier"] for it in json.loads(session.ask(asked))["inputs"]], ["a", "b", "c"])
            session.put(text_of(module, rows[1:]))
            self.assertEqual([it["specifier"] for it in json.loads(session.ask(asked))["inputs"]], ["a", "c"])
            session.put(text_of(module))
            self.assertEqual([it["specifier"] for it in json.loads(session.ask(asked))["inputs"]], ["a"])


if __name__ == "__main__":
    unittest.main()
