"""Mersohki for Python: functions over the C interface (include/mersohki.h), by ctypes.

The first call loads the shared library: the one that the environment variable MERSOHKI_LIBRARY names; or else
libmersohki.so beside this module; or else, in the repository, target/bindings/libmersohki.so, which is linked from the
static library with the C compiler ($CC, or cc) unless it is newer than that. `bindings/archive` writes the static
library.

A file is any bytes-like object. A refusal is raised as `Refused`. Memory is lent by this module, so that no caller has
to.
"""
import ctypes
import enum
import os
import shlex
import subprocess
import tempfile
from collections import namedtuple
from pathlib import Path

MAX_WORKERS = 16
MAX_OPERATIONS = 1024
MAX_FILE = 10 + 10 * MAX_OPERATIONS
MAX_TABLE = MAX_OPERATIONS * MAX_WORKERS
MAX_RACES = 491520

Counts = namedtuple("Counts", "workers operations")


class Question(enum.IntEnum):
    """The questions' numbers, named as in the header."""

    HEADER = 1
    WORKER_COUNT = 2
    OPERATION_COUNT = 3
    FILE_SIZE = 4
    MARK = 5
    WORKER = 6
    KIND = 7
    EVENT = 8
    CELLS = 9
    COMPLETE_RUN = 10
    TABLE_SPACE = 11
    IN_TRACE = 12
    DIFFERENT = 13
    UNORDERED = 14
    RUN_SPACE = 15
    RACE_SPACE = 16
    OUTPUT_SPACE = 17


class Refused(Exception):
    """The first question that was answered "no", as `number` (see `Question`), and the refusal's `place`."""

    def __init__(self, number, place):
        super().__init__(number, place)
        self.number = number
        self.place = place

    def __str__(self):
        return f"refused {self.number} {self.place}"


U8, U16, U32, SIZE = ctypes.c_uint8, ctypes.c_uint16, ctypes.c_uint32, ctypes.c_size_t


# The structs and functions of the header, as it declares them. Nothing compares the two but the examples' output.
def _struct(name, *fields):
    return type(name, (ctypes.Structure,), {"_fields_": fields})


_REFUSAL = (("number", U8), ("place", U32))
_COUNTS = (("workers", U8), ("operations", U32))
_AcceptResult = _struct("AcceptResult", *_REFUSAL, *_COUNTS)
_TableResult = _struct("TableResult", *_REFUSAL, *_COUNTS)
_OrderResult = _struct("OrderResult", *_REFUSAL, ("sign", ctypes.c_int8))
_RunsResult = _struct("RunsResult", *_REFUSAL, ("operations", U32))
_RacesResult = _struct("RacesResult", *_REFUSAL, *_COUNTS, ("races", U32))
_CanonicalResult = _struct("CanonicalResult", *_REFUSAL, ("size", U32))
_BeginningResult = _struct("BeginningResult", ("list", U32), ("length", SIZE))

_BYTES = (ctypes.POINTER(U8), SIZE)
_NUMBERS = (ctypes.POINTER(U16), SIZE)
_FUNCTIONS = {
    "mersohki_accept": (_AcceptResult, _BYTES),
    "mersohki_order_table": (_TableResult, _BYTES + _NUMBERS),
    "mersohki_pair_order": (_OrderResult, _BYTES + (U32, U32)),
    "mersohki_two_runs": (_RunsResult, _BYTES + (U32, U32) + _NUMBERS + _NUMBERS),
    "mersohki_races": (_RacesResult, _BYTES + _NUMBERS + _NUMBERS + _NUMBERS),
    "mersohki_canonical": (_CanonicalResult, _BYTES + _BYTES),
    "mersohki_beginning": (_BeginningResult, _NUMBERS + _NUMBERS + (U32, U32)),
}


def _linked(archive, shared):
    """The shared library, linked from the archive, if it is older than that."""
    if not archive.exists():
        raise FileNotFoundError(
            "MERSOHKI_LIBRARY is not set, no libmersohki.so lies beside the module, and there is no"
            f" {archive}, which `bindings/archive` writes"
        )
    if not shared.exists() or shared.stat().st_mtime < archive.stat().st_mtime:
        shared.parent.mkdir(parents=True, exist_ok=True)
        compiler = shlex.split(os.environ.get("CC") or "cc")
        whole = ["-Wl,-z,now", "-Wl,--whole-archive", str(archive), "-Wl,--no-whole-archive"]
        # under another name first, so that nobody loads half a file
        with tempfile.TemporaryDirectory(dir=shared.parent) as folder:
            made = Path(folder) / shared.name
            subprocess.run([*compiler, "-shared", "-o", str(made), *whole], check=True)
            os.replace(made, shared)
    return shared


def _found():
    named = os.environ.get("MERSOHKI_LIBRARY")
    if named:
        return Path(named).resolve()
    folder = Path(__file__).resolve().parent
    beside = folder / "libmersohki.so"
    if beside.exists():
        return beside
    target = folder.parent.parent / "target"
    return _linked(target / "staticlib" / "libcapi.a", target / "bindings" / beside.name)


_loaded = None


def _library():
    global _loaded
    if _loaded is None:
        library = ctypes.CDLL(str(_found()))
        for name, (result, arguments) in _FUNCTIONS.items():
            function = getattr(library, name)
            function.restype = result
            function.argtypes = arguments
        _loaded = library
    return _loaded


def _lent_bytes(file):
    data = memoryview(file).tobytes()
    return (U8 * len(data)).from_buffer_copy(data), len(data)


def _lent_numbers(count):
    return (U16 * count)(), count


# ctypes cuts a number that is too large to its low bits, so that operation 2 ** 32 would be operation 0.
def _within(name, x, end):
    if not 0 <= x < end:
        raise ValueError(f"{name} is {x}, not from 0 to {end - 1}")
    return x


def _listed(name, numbers):
    numbers = [_within(name, x, 2**16) for x in numbers]
    return (U16 * len(numbers))(*numbers), len(numbers)


def _unless_refused(result):
    if result.number != 0:
        raise Refused(result.number, result.place)
    return result


def accept(file):
    """Reads a file: the counts of its trace."""
    r = _unless_refused(_library().mersohki_accept(*_lent_bytes(file)))
    return Counts(r.workers, r.operations)


def order_table(file):
    """The order table: a list with the row of each operation."""
    table = _lent_numbers(MAX_TABLE)
    r = _unless_refused(_library().mersohki_order_table(*_lent_bytes(file), *table))
    return [table[0][k * r.workers : (k + 1) * r.workers] for k in range(r.operations)]


def pair_order(file, a, b):
    """The order of a and b: -1 where a is certain before b, +1 where b is certain before a, 0 where neither is."""
    a, b = _within("a", a, 2**32), _within("b", b, 2**32)
    return _unless_refused(_library().mersohki_pair_order(*_lent_bytes(file), a, b)).sign


def two_runs(file, a, b):
    """Two complete runs, a before b in the first and b before a in the second."""
    a, b = _within("a", a, 2**32), _within("b", b, 2**32)
    first, second = _lent_numbers(MAX_OPERATIONS), _lent_numbers(MAX_OPERATIONS)
    r = _unless_refused(_library().mersohki_two_runs(*_lent_bytes(file), a, b, *first, *second))
    return first[0][: r.operations], second[0][: r.operations]


def races(file, space=None):
    """The races, as pairs of a lower and a higher operation.

    With `space`, more races than that are refused, by question 16. Without it, there is space for all."""
    if space is None:
        try:
            return races(file, 4096)
        except Refused as refusal:
            if refusal.number != Question.RACE_SPACE:
                raise
            return races(file, refusal.place)
    table, lower, higher = _lent_numbers(MAX_TABLE), _lent_numbers(space), _lent_numbers(space)
    r = _unless_refused(_library().mersohki_races(*_lent_bytes(file), *table, *lower, *higher))
    return list(zip(lower[0][: r.races], higher[0][: r.races]))


def canonical(file):
    """The tidy file, as bytes."""
    output = (U8 * MAX_FILE)(), MAX_FILE
    r = _unless_refused(_library().mersohki_canonical(*_lent_bytes(file), *output))
    return bytes(output[0][: r.size])


def beginning(first, second, chosen, other):
    """The part of one of two lists that ends with `chosen`, where `other` comes later; else nothing."""
    first, second = list(first), list(second)
    lent = _listed("a number of the first list", first) + _listed("a number of the second list", second)
    chosen, other = _within("chosen", chosen, 2**32), _within("other", other, 2**32)
    r = _library().mersohki_beginning(*lent, chosen, other)
    return (first if r.list == 0 else second)[: r.length]
