"""Calls from Rust, by the crate `lr1`."""
import os
import re
import shutil

from gate.callers.parts import BINDINGS, HERE, cases_by, lacks, ran
from gate.files import write

MANIFEST = """[package]
name = "answer"
version = "0.0.0"
edition = "2021"

[dependencies]
lr1 = {{ path = "{path}" }}

[workspace]
"""


def cases(library, room, stored):
    """The tests of both crates, and the stored cases."""
    if left_out := lacks("cargo"):
        return left_out, []
    folder = f"{room}/answer"
    how = {"LR1_LIB_DIR": library, "CARGO_TARGET_DIR": f"{room}/target", "CARGO_NET_OFFLINE": "true"}
    said = ran("cargo", "test", "--quiet", "--locked", folder=f"{BINDINGS}/rust", **how)
    count = sum(map(int, re.findall(r"(?m)^test result: ok\. (\d+) passed", said)))
    write(f"{folder}/Cargo.toml", MANIFEST.format(path=f"{BINDINGS}/rust/lr1"))
    os.makedirs(f"{folder}/src")
    shutil.copy(f"{HERE}/answer.rs", f"{folder}/src/main.rs")
    ran("cargo", "build", "--quiet", folder=folder, **how)
    said, faults = cases_by(stored, room, "rust", f"{room}/target/debug/answer")
    return f"{count} tests, {said}", faults if count else [*faults, "no test of the crates ran"]
