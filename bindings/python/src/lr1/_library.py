"""The shared library, over ctypes."""

from __future__ import annotations

import ctypes
import operator
import os
import pathlib
from typing import Iterable, List, NamedTuple, Sequence, Tuple, Union

# The version of the library's calls that this package uses.
_VERSION = 1
# How many bytes or numbers the first call has room for.
_ROOM = 1 << 16

OK, REFUSED, FAULT, NO_MEMORY = range(4)


class Answer(NamedTuple):
    """What the library returns.

    `status` is 0 for tables or a tree, 1 for conflicts, a refusal or a limit, and 2 for a fault. A
    check has the status 0 for faithful tables, and 1 for others.
    """

    status: int
    text: str


def _path() -> str:
    """The file that the variable LR1_LIBRARY names, or else the one of this package."""
    return os.environ.get("LR1_LIBRARY") or str(pathlib.Path(__file__).with_name("liblr1.so"))


def _loaded(path: str) -> ctypes.CDLL:
    """The library, with the types of its calls."""
    try:
        library = ctypes.CDLL(path)
        library.lr1_version.restype = ctypes.c_uint32
        library.lr1_version.argtypes = []
        library.lr1_ask.restype = ctypes.c_uint8
        library.lr1_tables.restype = ctypes.c_uint8
        library.lr1_check.restype = ctypes.c_uint8
        library.lr1_action.restype = library.lr1_goto.restype = ctypes.c_uint8
        library.lr1_parse.restype = library.lr1_expected.restype = ctypes.c_uint8
    except (OSError, AttributeError) as why:
        way_out = "install the package, or set LR1_LIBRARY to the path of liblr1.so"
        raise ImportError(f"{path} is not the library lr1: {why}; {way_out}") from why
    text = [ctypes.c_char_p, ctypes.c_size_t] * 2
    numbers = [ctypes.c_void_p, ctypes.c_size_t]
    count = ctypes.POINTER(ctypes.c_size_t)
    room = [*numbers, count]
    library.lr1_ask.argtypes = [*text, ctypes.c_bool, *room]
    library.lr1_tables.argtypes = [*text, ctypes.c_bool, ctypes.c_bool, *room]
    library.lr1_check.argtypes = [*text, *numbers, *room]
    library.lr1_action.argtypes = [*numbers, ctypes.c_uint32, ctypes.c_uint32, *room]
    library.lr1_goto.argtypes = [*numbers, ctypes.c_uint32, ctypes.c_uint32, *room]
    library.lr1_parse.argtypes = [*numbers, *numbers, ctypes.c_size_t, *room, count]
    library.lr1_expected.argtypes = [*numbers, *numbers, ctypes.c_size_t, *room]
    if library.lr1_version() != _VERSION:
        raise ImportError(f"{path} has version {library.lr1_version()}, and version {_VERSION} is needed")
    return library


_LIBRARY = _loaded(_path())


def version() -> int:
    """The version of the library's calls."""
    return int(_LIBRARY.lr1_version())


def ask(text: Union[str, bytes], words: Iterable[str], canonical: bool = False) -> Answer:
    """Asks the library a question on a grammar, as the programs `lrtab` and `lrshow` are asked.

    `words` are those after FILE on the command line of either program.

    >>> ask('S = "x"', ["S", "parse", "9", "x"])
    Answer(status=0, text='[S: "x"]\\n')
    """
    words = list(words)
    for it in words:
        if not isinstance(it, str):
            raise TypeError(f"{it!r} is no word: give a str")
        if "\0" in it:
            raise ValueError(f"the word {it!r} has a character U+0000")
    given = text.encode() if isinstance(text, str) else bytes(text)
    asked, room, length = "\0".join(words).encode(), _ROOM, ctypes.c_size_t()
    while True:
        out = ctypes.create_string_buffer(room)
        status = _LIBRARY.lr1_ask(
            given, len(given), asked, len(asked), canonical, out, room, ctypes.byref(length)
        )
        if status == NO_MEMORY:
            raise MemoryError("the library lr1 found no memory")
        if length.value <= room:
            return Answer(status, ctypes.string_at(out, length.value).decode())
        room = length.value


def table_numbers(
    text: Union[str, bytes], start: str, canonical: bool = False, items: bool = False
) -> Tuple[int, List[int]]:
    """The status and the numbers of the tables of a grammar, which docs/FORMATS.md describes.

    There are numbers only if the status is 0. It is 1 for conflicts and 2 for a fault. With `items`,
    each state has its items, as `check` needs them.

    >>> status, numbers = table_numbers('S = "x"', "S")
    >>> status, numbers[3:8]
    (0, [1, 1, 1, 1, 2])
    """
    given = text.encode() if isinstance(text, str) else bytes(text)
    name, room, length = start.encode(), _ROOM, ctypes.c_size_t()
    while True:
        out = (ctypes.c_uint32 * room)()
        status = _LIBRARY.lr1_tables(
            given, len(given), name, len(name), canonical, items, out, room, ctypes.byref(length)
        )
        if status == NO_MEMORY:
            raise MemoryError("the library lr1 found no memory")
        if length.value <= room:
            return status, out[: length.value]
        room = length.value


def check(text: Union[str, bytes], start: str, numbers: Iterable[int]) -> Answer:
    """Checks whether tables are faithful to a grammar, whatever program made them.

    The tables are numbers with items, which docs/FORMATS.md describes. The status is 0 for faithful
    tables, 1 for tables that do not pass the check, and 2 for a fault. Then there is a message.

    >>> _, numbers = table_numbers('S = "x"', "S", items=True)
    >>> check('S = "x"', "S", numbers)
    Answer(status=0, text='')
    >>> check('S = "x"', "S", numbers[:9])
    Answer(status=2, text='the tables: place 9: the numbers end before the tables\\n')
    """
    given = text.encode() if isinstance(text, str) else bytes(text)
    name, room, length = start.encode(), _ROOM, ctypes.c_size_t()
    tables = array_of(numbers)
    while True:
        out = ctypes.create_string_buffer(room)
        status = _LIBRARY.lr1_check(
            given, len(given), name, len(name), tables, len(tables), out, room, ctypes.byref(length)
        )
        if status == NO_MEMORY:
            raise MemoryError("the library lr1 found no memory")
        if length.value <= room:
            return Answer(status, ctypes.string_at(out, length.value).decode())
        room = length.value


def numbered(call: str, *words: object, room: int = 64, more: Sequence[object] = ()) -> Tuple[int, List[int]]:
    """The status and the numbers of a call, by its name and its first arguments."""
    length = ctypes.c_size_t()
    while True:
        out = (ctypes.c_uint32 * room)()
        status = getattr(_LIBRARY, call)(*words, out, room, ctypes.byref(length), *more)
        if status == NO_MEMORY:
            raise MemoryError("the library lr1 found no memory")
        if length.value <= room:
            return int(status), out[: length.value]
        room = length.value


def array_of(numbers: Iterable[int]) -> ctypes.Array[ctypes.c_uint32]:
    """Numbers, as the library reads them."""
    listed = list(numbers)
    for it in listed:
        if not 0 <= it < 1 << 32:
            raise ValueError(f"the number {it} is not between 0 and 2**32 - 1")
    return (ctypes.c_uint32 * len(listed))(*listed)


def counted(what: str, number: int) -> int:
    """A number that the library reads. One that is negative or has more than 64 bits raises ValueError."""
    number = operator.index(number)
    if not 0 <= number < 1 << 64:
        raise ValueError(f"{what} {number} is not between 0 and 2**64 - 1")
    return number


def position() -> ctypes.c_size_t:
    """A place for a position."""
    return ctypes.c_size_t()
