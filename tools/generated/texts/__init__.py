"""The texts of the drivers, which are the same in each file of a language."""
import os

HERE = os.path.dirname(os.path.realpath(__file__))


def read(name):
    """The lines of a text."""
    with open(f"{HERE}/{name}", encoding="utf-8") as it:
        return it.read().splitlines()
