"""Tests of the trials of the page, by a browser whose answers are right but for one."""
import json
import unittest
from unittest import mock

from gate import page
from gate.tests.programs import program, ran

HOSTILE = {text: place for place, text in enumerate([*page.HOSTILE, *page.UNSEEN])}
GOTOS = {name: place for place, name in enumerate(page.NAMES)}
# The data of each page.
DATA = {
    "sums": {"states": [{"shifts": {"N": 4}}]},
    "dangling": {"conflicts": [{"state": 5, "actions": [{"items": [{"examples": [0, 0]}]}, {"items": [{"examples": [0]}]}]}]},
    "hostile": {"states": [{"number": place, "shifts": HOSTILE, "gotos": GOTOS} for place in HOSTILE.values()]},
    "whole": {"states": [{}] * page.WHOLE},
}
LINES = [f'"{page.UNSEEN.get(text, text)}" to State {place}' for text, place in HOSTILE.items()]
FOUND = {"N": ['"N" leads to State 4, and is in production 3'], "7": ["State 7"], "qq": [""], "__proto__": ["leads to", "leads to", "so"]}
# The beginnings of scripts, and the answers to each that are right and wrong. What is found depends
# on what was typed.
ANSWERS = {
    page.HERE_IS.partition("%")[0]: (True, False),
    "document.body.innerText": ("9 states, 5 productions, 4 terminals, no conflicts", "8 states"),
    "document.activeElement.id": ("wanted", "s0"),
    page.INSIDE: (["p0", "solid"], ["p0", "none"]),
    "document.getElementById('found').offsetHeight": (0, 20),
    "document.getElementById('found').innerText": (FOUND, dict.fromkeys(FOUND, ["so"])),
    "count.textContent": ("none found", "1 found"),
    page.TOKENS.partition("%")[0]: (' on ")" "-" Eof', " on Eof"),
    "document.querySelector('#c1 p')": ('in State 5, on "else"', 'in State 5, on "if"'),
    page.WITHIN: (True, False),
    "[...document.querySelectorAll('#c1 .tree')]": ([2, 2, 2], [2, 2]),
    "[...document.querySelectorAll('article')]": (0, 1),
    "[...document.querySelectorAll('#s0 .line')]": (["so", *LINES], LINES[1:]),
    "document.activeElement.innerText": ("\n".join(f"{it} to State\n{to}" for it, to in GOTOS.items()), "so"),
    "[typeof window.trap": (["undefined", 2, 0], ["number", 3, 0]),
    "document.querySelector('#s0')": (True, False),
    page.SEARCHES: ([1, 2, 99, 0], [1, 100, 3, 0]),
    "document.activeElement.getBoundingClientRect().top": (0, 200),
    "complaints": ([], ["a complaint"]),
}


class Browser:
    """A browser whose answers to one script are wrong."""

    def __init__(self, wrong):
        self.wrong, self.typed, self.has_ended = wrong, "", False

    def ask(self, script):
        name = next((it for it in ANSWERS if script.startswith(it)), None)
        answer = ANSWERS[name][name == self.wrong] if name else None
        return answer[self.typed] if isinstance(answer, dict) else answer

    def press(self, *keys):
        self.typed = "".join(keys).rpartition("/")[2]

    def complaints(self):
        return self.ask("complaints")

    def end(self):
        self.has_ended = True

    wait, call, look, open = ask, mock.Mock(), mock.Mock(), mock.Mock()


@mock.patch("time.sleep", lambda _: None)
class Trials(unittest.TestCase):
    def status_and_lines(self, wrong=None, **data):
        """The status of the trials, and what they print of a program that prints the pages."""
        opening = '<script id="data" type="application/json">'
        texts = {name: json.dumps(it).replace("<", "\\u003c") for name, it in {**DATA, **data}.items()}
        pages = {f"page_{name}": f"{opening}{text}</script>" for name, text in texts.items()}
        browser = Browser(wrong)
        with program('cat "$(dirname "$0")/page_$(basename "$1")"', **pages) as path:
            status, said = ran(page.main, path, browse=lambda: browser)
        self.assertTrue(browser.has_ended)
        return status, said.splitlines()

    def test_right_answers(self):
        status, lines = self.status_and_lines()
        self.assertEqual([it for it in lines if not it.startswith("as it should be: ")], [])
        self.assertEqual((status, len(lines)), (0, 32))

    def test_wrong_answers(self):
        for wrong in ANSWERS:
            with self.subTest(wrong=wrong):
                status, lines = self.status_and_lines(wrong)
                self.assertEqual((status, any(it.startswith("NOT AS IT SHOULD BE: ") for it in lines)), (1, True))
        status, lines = self.status_and_lines(whole={"states": [{}]})
        self.assertEqual((status, "NOT AS IT SHOULD BE: a large page (1 states, 0.0 MB)" in lines), (1, True))

    def test_wrong_usage(self):
        for words in (["/nowhere"], ["a", "b", "c"]):
            self.assertEqual(ran(page.main, *words, browse=Browser)[0], 2)
