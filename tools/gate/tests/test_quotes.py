"""Tests of gate.quotes over a scratch repository."""
import subprocess

from gate.files import read
from gate.quotes import main
from gate.tests.programs import CommandTest, run_over

FILE = "crates/a/src/count.rt"
COUNT = "pub struct Count {\n    pub all: usize,\n}"
MORE = """pub fn more(&self, text: &str) -> usize
    requires room { self.now.all < 9 }
    // { so it fits
    ensures { result ≡ self.now.all + 1 }"""
BODY = MORE + "\n{\n    self.all + 1\n}"
INDENTED = BODY.replace("\n", "\n    ")
SOURCE = f"""/// A count.
#[derive(Drop)]
{COUNT}

impl Count {{
    /// One more; "{{" is no bracket here.
    {INDENTED}

    pub fn twice(&self) -> usize {{ 2 }}
}}

fn twice() {{}}
"""
EXPORT = 'pub extern "C" fn one() -> u8\n    ensures { result ≡ 1 }'
LONGER = SOURCE.replace("+ 1 }", "+ 1 }\n        ensures x { ⊤ }")


def quoted(name, text):
    return f"Before.\n\n<!-- quoted: {FILE}{name} -->\n```rust\n{text}\n```\n\nAfter.\n"


def quotes(page, source=SOURCE, *words):
    """Runs the command over a new repository, and prints what its page then has."""
    def main_in_git(given):
        subprocess.run(["git", "init", "-q", given[-1]], check=True)
        status = main(given)
        print(read(f"{given[-1]}/PAGE.md"), end="")
        return status

    return run_over({FILE: source, "PAGE.md": page}, main_in_git, *words, "ROOM")


class Quotes(CommandTest):
    def test_what_is_printed(self):
        page = quoted(" more", MORE)
        stale = page.replace("< 9", "< 8")
        self.check(quotes, (
            ("equal quotes", 0, "quotes: 2 agree\n", page + quoted(" Count", COUNT)),
            ("a body and a file", 0, "quotes: 2 agree\n", quoted(" more whole", BODY) + quoted("", SOURCE.strip())),
            ("an export", 0, "quotes: 1 agree\n", quoted(" one", EXPORT), f"{SOURCE}\n{EXPORT}\n{{\n    1\n}}\n"),
            ("no quotes", 1, "quotes: 0 agree\n", "Nothing.\n"),
            ("a changed clause", 1, "line 2: the source has '    requires room { self.now.all < 9 }'", stale),
            ("a new clause", 1, "line 5: the source has '    ensures x { ⊤ }', the quote None", page, LONGER),
            ("one that differs", 1, "quotes: 1 agree, 1 differ\n", stale + page),
            ("a missing function", 1, "less -->: the file declares it 0 times", quoted(" less", MORE)),
            ("a beginning of a name", 1, "mor -->: the file declares it 0 times", quoted(" mor", MORE)),
            ("a function that stands twice", 1, "twice -->: the file declares it 2 times", quoted(" twice", "")),
            ("a missing file", 1, "there is no such file", page.replace("count.rt", "lib.rt")),
            ("a quote without a block", 1, "no fenced block stands after it", page.replace("```rust", "")),
            ("another first line", 1, "it is not a quote's first line", quoted(" more than that", MORE)),
            ("written anew", 0, f"quotes: 1 agree\n{page}", quoted(" more", "old\n\nlines"), SOURCE, "--write"),
        ))
