"""Tests of the readers of what `lrshow` writes, and of the listings of its data."""
import itertools
import json
import unittest

from gate.shown import data, graph, page
from gate.shown.listings import LINE, Listings


def data_of(count):
    """The data of so many equal productions `S = "x"`, each two of which are in conflict."""
    def state(number, shifts, reductions):
        items = [{"production": it, "dot": number, "lookahead": None} for it in range(count)]
        return {"number": number, "items": items, "shifts": shifts, "gotos": {}, "reductions": reductions}

    reductions = [{"production": it, "lookahead": 0} for it in range(count)]
    actions = [{"reduce": it, "items": [{"production": it, "dot": 1, "examples": []}]} for it in range(count)]
    conflicts = [{"state": 1, "lookahead": 0, "actions": it} for it in itertools.combinations(actions, 2)]
    witness = {"search": "found", "derivations": 2 * ['[S: "x" (*)]']}
    it = {
        "format": "lrshow", "version": 3, "start": "S", "terminals": ["x"],
        "productions": [{"number": it, "nonterminal": "S", "symbols": [{"terminal": "x"}]} for it in range(count)],
        "sets": [[None]], "states": [state(0, {"x": 1}, []), state(1, {}, reductions)],
        "conflicts": conflicts, "causes": [{"conflicts": [it], **witness} for it in range(len(conflicts))],
    }
    return json.dumps(it, separators=(",", ":")) + "\n"


DATA, TWICE = data_of(1), data_of(2)
# The data of `S = A "x"`, `S = "x"`, `A =`, in one state, whose conflict has an example.
EXAMPLE = '{"symbols":[null,{"terminal":"x"}],"place":1,"reductions":[{"start":0,"end":1,"nonterminal":"A"}]}'
SHIFTED = (
    '{"format":"lrshow","version":3,"start":"S","terminals":["x"],"productions":[{"number":2,"nonterminal":"A",'
    '"symbols":[]},{"number":0,"nonterminal":"S","symbols":[{"nonterminal":"A"},{"terminal":"x"}]},{"number":1,'
    '"nonterminal":"S","symbols":[{"terminal":"x"}]}],"sets":[["x"],[null]],"states":[{"number":0,"items":'
    '[{"production":2,"dot":0,"lookahead":0},{"production":1,"dot":0,"lookahead":1}],"shifts":{"x":0},"gotos":{},'
    '"reductions":[{"production":2,"lookahead":0}]}],"conflicts":[{"state":0,"lookahead":0,"actions":[{"reduce":2,"items":'
    f'[{{"production":2,"dot":0,"examples":[{EXAMPLE}]}}]}},'
    '{"shift":"x","state":0,"items":[{"production":1,"dot":0,"examples":[]}]}]}],'
    '"causes":[{"conflicts":[0],"search":"exhausted","derivations":[]}]}'
)
HEAD = f"Lalrpop Report File\n{'=' * 40}\n\nSummary\n{LINE}\n\n"
BEGUN, ENDED = (f'\n    S -> {it}\n        lookahead "x" Eof\n' for it in ('. "x"', '"x" .'))
MADE = '\n    reduction S -> "x"\n        lookahead Eof\n'
REPORT = (
    f"{HEAD}Constructed 2 states\n\nState Table\n{LINE}\n\nState 0 {{\n{BEGUN}\n    \"x\" shift and goto 1\n\n}}\n"
    f"\nState 1 {{\n{ENDED}\n{MADE}\n\n}}\n"
)
FAILED = "Failure\nConstructed 2 states\nHas 1 conflicts\n    reduce/reduce: 1\nStates with conflicts:  1\n"
CONFLICT = "\n    reduce/reduce conflict\n" + 2 * '        reduction S -> "x"\n' + "        lookahead Eof\n}\n"
TWICE_REPORT = REPORT.replace("Constructed 2 states\n", FAILED)[:-2] + CONFLICT
for part in (BEGUN, ENDED, MADE):
    TWICE_REPORT = TWICE_REPORT.replace(part, 2 * part)
SHIFTED_REPORT = (
    f"{HEAD}Failure\nConstructed 1 states\nHas 1 conflicts\n    shift/reduce:  1\nStates with conflicts:  0\n"
    f'\nState Table\n{LINE}\n\nState 0 {{\n\n    A -> .\n        lookahead "x"\n\n    S -> . "x"\n        lookahead Eof'
    '\n\n\n    reduction A ->\n        lookahead "x"\n\n    "x" shift and goto 0\n\n\n    shift/reduce conflict\n'
    '        reduction A ->\n        shift     "x"    shift and goto 0\n        lookahead "x"\n}\n'
)
# The sets, and the first item, which has all tokens.
WHOLE = DATA[DATA.index("[[null]]") : DATA.index("}", DATA.index("[[null]]"))]
EXPLAINED = 'conflict 1 in state 0 on "x"\n  reduce A ->\n    (*) "x"\n  shift "x"\n'
# A part of data, what is put in its place, and a part of the reason.
SPOILT_DATA = (
    *((DATA, *it) for it in (
        ("[[null]]", '[[null,"x"]]', "set 0: tokens [None, 'x']"), ("[[null]]", "[[null],[null]]", "a set twice"),
        ("[[null]]", '[[null],["x"]]', "sets [1] of nothing"), ('"lookahead":0', '"lookahead":1', "state 1: no set 1"),
        ('"lookahead":0', '"lookahead":null', "state 1: no set None"),
        ('null}],"shifts":{"x"', '[null]}],"shifts":{"x"', "state 0: no set [None]"),
        (WHOLE, WHOLE.replace("[[null]]", '[[null],["x",null]]').replace('":null', '":1'),
         "state 0: an item names the set of all tokens"),
        ('{"number":0,"nonterminal":"S"', '{"number":1,"nonterminal":"S"', "no production 0"),
        ('"version":3', '"version":3,"version":3', "a member stands twice"), ("[]}\n", "[]", "no JSON"),
        ('"version":3', '"version":NaN', "NaN is no JSON"), ('"version":3', '"version":2', "another format, version"),
        ('"version":3,', "", "the whole has other members than format version"),
        ('"terminals":["x"]', '"terminals":["x","a"]', "terminals twice, or in another order"),
        ('{"terminal":"x"}', '{"terminal":"y"}', "production 0: unknown symbol 'y'"),
        ('"symbols":[', '"more":0,"symbols":[', "a production has other members"),
        ('{"number":0,"nonterminal"', '{"number":-1,"nonterminal"', "production -1 of 'S'"),
        ('"states":[{"number":0', '"states":[{"number":1', "state 0 has number 1"),
        ('"dot":1', '"dot":2', "state 1: dot 2 of 1"), ('{"x":1}', '{"x":2}', "state 0: an edge to no state"),
        ('{"x":1}', '{"y":1}', "state 0: shifts ['y']"), ('"nonterminal":"S",', "", "another form: KeyError"),
    )),
    *((TWICE, *it) for it in (
        ('{"number":1,"nonterminal"', '{"number":0,"nonterminal"', "a production's number twice"),
        ('{"state":1', '{"state":2', "conflict 0: no state 2"), ('{"reduce":0,', '{"reduce":2,', "no reduction by 2"),
        ("[[null]]", "[[]]", "conflict 0: tokens [], 2 actions"),
        ('"dot":1,"examples"', '"dot":0,"examples"', "other items than the finished one"),
        ('"conflicts":[0]', '"conflicts":[]', "causes of the conflicts [[]]"),
        ('"conflicts":[0],', '"conflicts":[0],"more":0,', "a cause has other members"),
        ('"found"', '"lost"', "a search ended as 'lost'"), ('"found"', '"cut"', "2 derivations of a search cut"),
        ('[S: \\"x\\" (*)]', '[S: \\"y\\" (*)]', "no witness"), ('[S: \\"x\\" (*)]', '[S: \\"x\\" (*)', "no witness"),
        ('[S: \\"x\\" (*)]', '[S: (*) \\"x\\"]', "no witness"),
    )),
    *((SHIFTED, *it) for it in (
        ('"nonterminal":"A","symbols"', '"nonterminal":"T","symbols"', "productions in another order"),
        ('"shift":"x","state":0', '"shift":"x","state":1', "conflict 0: no shift of 'x' to 1"),
        ('{"production":1,"dot":0,"examples"', '{"production":2,"dot":0,"examples"', "items that don't shift 'x'"),
        ('{"production":1,"dot":0,"examples"', '{"production":0,"dot":1,"examples"', "no such item in state 0"),
        (EXAMPLE, ",".join(4 * [EXAMPLE]), "conflict 0: 4 examples"),
        ('"place":1', '"place":3', "an example with place 3 of 2"), ('"end":1', '"end":3', "symbols 0 to 3"),
        ('"A"}]}', '"A"},{"start":1,"end":2,"nonterminal":"S"}]}', "a reduction within the one before it"),
    )),
)
X, END = "&quot;x&quot;", '<BR ALIGN="LEFT"/>'
KERNELS = f"S -&gt; &bull; {X}{END}", f"S -&gt; {X} &bull;{END}"
REDUCE = f"<I>reduce</I> S -&gt; {X} <I>on</I> Eof{END}"
GRAPH = (
    "digraph states {\n  node [shape=box fontname=monospace];\n  edge [fontname=monospace];\n"
    f"  0 [label=<<B>State 0</B>{END}{KERNELS[0]}>];\n  1 [label=<<B>State 1</B> by {X}{END}{KERNELS[1]}{REDUCE}>"
    " peripheries=2];\n  0 -> 1;\n}\n"
)
ACROSS = GRAPH.replace("  0 [", "  rankdir=LR;\n  0 [", 1)
RED = f'<FONT COLOR="red">reduce S -&gt; {X}, or S -&gt; {X}, on Eof</FONT>{END}'
TWICE_DRAWN = GRAPH.replace(f"{REDUCE}> peripheries=2", f"{2 * REDUCE}{RED}> peripheries=2 color=red penwidth=2")
for part in KERNELS:
    TWICE_DRAWN = TWICE_DRAWN.replace(part, 2 * part)
SPOILT_GRAPHS = (
    *((GRAPH, *it) for it in (
        ("0 -> 1", "0 -> 0", "edges"), ("&bull; &quot;", "&quot; &bull;", "state 0 is drawn as"),
        ("by &quot;x", "by &quot;y", "state 1 is drawn as"), (" by &quot;x&quot;", "", "state 1 is drawn as"),
        ("State 0</B>", "State 0</B> by S", "state 0 is drawn as"),
        ("by &quot;x", "by <&quot;x", "a label that is no XML"),
        ("by &quot;x", "by &nosuch;&quot;x", "a label that is no XML"),
        ("State 0</B>", "State 0</B><U/>", "a label with U"), ("1;\n}", "1\n}", "a line that is no node and no edge"),
        ("  0 [", "  rankdir=LR;\n  0 [", "a line that is no node and no edge"),
        ("  0 [", f"{graph.LARGE}  0 [", "another layout for 1 edges"),
        ("1;\n}", "1 [color=red];\n}", "edges"), ("1;\n}", "1 [style=dashed];\n}", "edges"),
        ("2];", "2 color=red penwidth=2];", "state 1:"), (" peripheries=2", "", "state 1 has 1 frames"),
        ("/>>];\n  1", "/>> peripheries=2];\n  1", "state 0 has 2 frames"),
        ("/>>];\n  1", "/>State 2>];\n  1", "a line of a node without its end"),
        ("1;\n}", "1;\n  1 [label=<>];\n}", "a node after an edge"),
    )),
    (ACROSS, "LR", "TB", "another beginning or end"), (ACROSS, "  0 [label", "  2 [label", "nodes [2, 1]"),
)
PAGE = (
    '<!DOCTYPE html>\n<html lang="en"><head><meta http-equiv="Content-Security-Policy" content="default-src \'none\'; '
    "script-src 'unsafe-inline'\">\n<title>States</title><style>p { margin: 0; }</style></head><body><p></p>\n"
    '<script id="data" type="application/json">\n{}</script>\n<script>\nJSON.parse("{}");\n</script></body></html>\n'
)
SPOILT_PAGES = (
    ('"x"', '"y"', "unknown symbol"), ("<p>", '<p onclick="x">', "p has ['onclick']"),
    ("<p>", "<script>alert(1)</script><p>", "the page has [('style', {}), ('script', {}), ('script'"),
    ("<p>", '<img src="http://a"><p>', "the page has elements ['img']"),
    ("'none'", "'self'", "the page may load"), ('"causes":[]}', '"causes":[]', "no JSON"),
    ('"production":0,"dot":1', '"production":0,"dot":0', "the page holds other data"),
)


def page_of(text):
    return PAGE.replace("{}", text.replace("<", "\\u003c"), 1)


class Readers(unittest.TestCase):
    def refuse(self, reason, check, *given):
        with self.subTest(reason=reason):
            with self.assertRaises(data.WrongData) as found:
                check(*given)
            self.assertIn(reason, str(found.exception))

    def test_data(self):
        for text, tokens in (
            (DATA, [*2 * [["x", None]], [None]]), (TWICE, [*4 * [["x", None]], *3 * [[None]]]),
            (SHIFTED, [["x"], [None], ["x"], ["x"]]),
        ):
            got = data.read(text.encode())
            self.assertEqual([it.pop("tokens") for it in data.naming(got)], tokens)
            self.assertEqual(got, json.loads(text))
        for text, old, new, reason in SPOILT_DATA:
            self.refuse(reason, data.read, text.replace(old, new, 1).encode())

    def test_listings(self):
        for text, report, explained in (
            (DATA, REPORT, "no conflicts\n"),
            (SHIFTED, SHIFTED_REPORT, EXPLAINED),
            (TWICE, TWICE_REPORT, "conflict 1 in state 1 on Eof\n" + 2 * '  reduce S -> "x"\n'),
        ):
            listings = Listings(data.read(text.encode()))
            self.assertEqual(listings.report(), report)
            self.assertEqual(listings.explanation(), explained)

    def test_graphs(self):
        graph.check(TWICE_DRAWN, data.read(TWICE.encode()), None)
        for drawn, around in ((GRAPH, None), (ACROSS, 0), (ACROSS, 1)):
            graph.check(drawn, data.read(DATA.encode()), around)
        for drawn, old, new, reason in SPOILT_GRAPHS:
            around, text = 0 if drawn == ACROSS else None, drawn.replace(old, new, 1)
            self.refuse(reason, graph.check, text, data.read(DATA.encode()), around)
        many = GRAPH.replace("  0 -> 1;\n", 201 * "  0 -> 1;\n")
        _, edges = graph.read(many.replace("  0 [", f"{graph.LARGE}  0 [", 1), None)
        self.assertEqual(edges, 201 * [(0, 1, "")])
        self.refuse("another layout for 201 edges", graph.read, many, None)
        self.assertEqual(graph.few(["x"] * 10), ' "x"' * 8 + " and 2 more")

    def test_states_near_one(self):
        edges = {(0, 1), (1, 2), (2, 3), (4, 2), (3, 3), (5, 6)}
        for number, depth, expected in (
            (2, 0, {2}), (2, 1, {1, 2, 3, 4}), (2, 2, {0, 1, 2, 3, 4}), (2, 9, {0, 1, 2, 3, 4}), (0, 2, {0, 1, 2}),
            (5, 1, {5, 6}), (3, 1, {2, 3}), (7, 3, {7}),
        ):
            self.assertEqual(graph.near(edges, graph.Near(number, depth)), expected)

    def test_states_to_conflicts(self):
        # (two shortest paths to 3, one longer path, and a state that none leads to)
        edges = {(0, 1), (0, 2), (1, 3), (2, 3), (0, 4), (4, 5), (5, 3), (3, 6), (7, 6), (6, 0)}
        for ends, expected in (
            (set(), set()), ({0}, {0}), ({3}, {0, 1, 2, 3}), ({6}, {0, 1, 2, 3, 6}), ({5, 1}, {0, 1, 4, 5}), ({7}, set()),
        ):
            self.assertEqual(graph.to_conflicts(edges, ends), expected)

    def test_parts_of_graphs(self):
        """What is shown near a state or to conflicts has all edges between its states."""
        conflict = {"state": 2, "actions": [{}, {"shift": "x"}]}
        whole = {"start": "S", "terminals": ["x"], "productions": [], "conflicts": [conflict]}
        whole["states"] = [
            {"number": it, "items": [], "reductions": [], "shifts": {"x": to} if to is not None else {}, "gotos": gotos}
            for it, (to, gotos) in enumerate(((1, {"A": 2}), (2, {}), (None, {"A": 0, "B": 3}), (None, {})))]
        for around, numbers, edges in (
            (graph.CONFLICTS, [0, 2], [(0, 2, "style=dashed"), (2, 0, "style=dashed")]),
            (graph.Near(1, 0), [1], []), (graph.Near(3, 2), [0, 1, 2, 3], 5), (1, [0, 1, 2], [(0, 1, ""), (1, 2, "")]),
        ):
            drawn = graph.Drawn(whole, around)
            self.assertEqual(drawn.numbers(), numbers)
            found = [*drawn.edges()]
            self.assertEqual(len(found) if isinstance(edges, int) else found, edges)

    def test_pages(self):
        page.check(page_of(DATA), data.read(DATA.encode()))
        for old, new, reason in SPOILT_PAGES:
            self.refuse(reason, page.check, page_of(DATA).replace(old, new, 1), data.read(DATA.encode()))
        # (an element in the text of the data)
        self.refuse("the data have a sign", page.held, PAGE.replace("{}", "<b>", 1))
