"""The commands of tools/run."""
import importlib
import sys

COMMANDS = {
    "whole": ("gate.whole", "runs the whole gate, as .ci/run does"),
    "test": ("gate.tests", "tests the gate's own modules"),
    "mutants": ("gate.mutants.command", "tries the mutants that changed, and 20 others"),
    "borrows": ("gate.borrows", "tries a view that outlives its grammar, which must not compile"),
    "quotes": ("gate.quotes", "compares what pages quote from the sources with the sources"),
    "pages": ("gate.pages", "checks the form of the pages: widths, terms and links"),
    "crates": ("gate.crates_graph", "compares the graph of crates in ARCHITECTURE.md with crates.txt"),
    "guide": ("gate.guide", "runs the commands that pages show, and compares what they print"),
    "replay": ("gate.replay.lrtab", "replays the stored cases of lrtab"),
    "replay-lrshow": ("gate.replay.lrshow", "replays the stored cases of lrshow"),
    "replay-by-table": ("gate.replay.by_table", "replays parse cases by parse tables, and tries expected tokens"),
    "replay-by-data": ("gate.replay.by_data", "replays parse cases by the data of lrshow"),
    "report-of-data": ("gate.replay.report_of_data", "lays reports out from the data of lrshow"),
    "warnings": ("gate.replay.warnings", "compares the warnings of lrshow with their definitions"),
    "hostile": ("gate.hostile.command", "runs lrtab and lrshow on random and deep inputs"),
    "growths": ("gate.growths", "asks each public call while memory ends in it"),
    "case-files": ("gate.case_files", "tries lalrpop_bench on faulty case files"),
    "callers": ("gate.callers.command", "calls the library for C from C, Rust and Python"),
    "generated": ("gate.generated.command", "compiles generated parsers in C, Rust and Python, and asks them"),
    "page": ("gate.page", "tries the pages of lrshow in Chromium; .ci/run does not call it"),
}


def help_text():
    rows = [f"  {name:15} {summary}" for name, (_, summary) in COMMANDS.items()]
    return "\n".join(["usage: tools/run COMMAND [WORDS]", "", *rows, "", "tools/run COMMAND --help prints what a command takes."])


def main(words):
    if not words or words[0] in ("help", "--help", "-h"):
        print(help_text())
        return 0 if words else 2
    if words[0] not in COMMANDS:
        print(f"no command is named {words[0]}\n\n{help_text()}")
        return 2
    module = importlib.import_module(COMMANDS[words[0]][0])
    if words[1:] in (["--help"], ["-h"]):
        print(module.__doc__.strip())
        return 0
    return module.main(words[1:])


if __name__ == "__main__":
    sys.exit(main(sys.argv[1:]))
