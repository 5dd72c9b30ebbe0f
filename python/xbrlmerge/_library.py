"""Loads the shared library, and calls it with bytes."""
import array
import ctypes
import itertools
import os
import struct
import sys
from typing import Any, Callable, List, NamedTuple, Sequence, Tuple

DONE, REFUSED, TOO_LOOSE, TOO_SHORT, SHEET_REFUSED, NO_MEMORY, BAD_ENDS, BAD_LEVEL, TOO_MUCH = range(9)
NAME = "libxbrlmerge.so"
# the name by which the system finds an installed library
SONAME = "libxbrlmerge.so.0"
# the records for a refusal, for an accepted report and for both in include/xbrlmerge.h
REFUSAL, CHECKED, RESULT = struct.Struct("=QQI4x"), struct.Struct("=QII"), struct.Struct("=QIIQQI4xI4x")
# the first buffer is this many bytes longer than the reports: a text made from short reports can be longer than the reports
MORE = 4096
LONGEST_NAME = 64
LARGEST = (1 << 64) - 1


def _load() -> ctypes.CDLL:
    """Loads the first library that exists: the one that XBRLMERGE_LIBRARY names, the one beside this module, the one in lib/, or
    the one that is installed.

    Raises ImportError if none exists, or if Python is not 64-bit or the processor is not little-endian. Raises OSError if
    a file that exists cannot be loaded. An installed library that cannot be loaded counts as missing.
    """
    here = os.path.dirname(os.path.abspath(__file__))
    paths = (os.environ.get("XBRLMERGE_LIBRARY", ""), os.path.join(here, NAME), os.path.join(here, "..", "..", "lib", NAME))
    found = next((path for path in paths if path and os.path.exists(path)), None)
    if struct.calcsize("P") != 8 or sys.byteorder != "little":
        raise ImportError("xbrlmerge: it needs a 64-bit Python on a little-endian processor")
    # a CDLL lets other Python threads run during a call
    if found:
        return ctypes.CDLL(os.path.abspath(found))
    try:
        return ctypes.CDLL(SONAME)
    except OSError as fault:
        raise ImportError(f"xbrlmerge: there is no {NAME}: `./build --library` makes it, and XBRLMERGE_LIBRARY may name it") from fault


_LIBRARY = _load()
_POINTER, _SIZE, _NUMBER = ctypes.c_void_p, ctypes.c_size_t, ctypes.c_uint32
_SIZE_OUT = ctypes.POINTER(_SIZE)
_GIVEN: List[Any] = [_POINTER, _SIZE, _POINTER, _SIZE, _POINTER, _SIZE]
_TAKEN: List[Any] = [_POINTER, _SIZE, _SIZE_OUT, _POINTER, _SIZE, _SIZE_OUT]


def _call(name: str, result: Any, arguments: List[Any]) -> Callable[..., int]:
    found: Any = getattr(_LIBRARY, name)
    found.restype, found.argtypes = result, arguments
    call: Callable[..., int] = found
    return call


_merge = _call("xbrlmerge_merge", _NUMBER, [*_GIVEN, _NUMBER, *_TAKEN])
_verdicts = _call("xbrlmerge_verdicts", _NUMBER, [*_GIVEN, *_TAKEN])
_sources = _call("xbrlmerge_sources", _NUMBER, [*_GIVEN, *_TAKEN])
_verdicts_json = _call("xbrlmerge_verdicts_json", _NUMBER, [*_GIVEN, _SIZE, *_TAKEN])
_sources_json = _call("xbrlmerge_sources_json", _NUMBER, [*_GIVEN, _SIZE, *_TAKEN])
_check = _call("xbrlmerge_check", _NUMBER, [_POINTER, _SIZE, _POINTER, _SIZE, _POINTER, _POINTER])
_check_all = _call("xbrlmerge_check_all", _NUMBER, [*_GIVEN, _POINTER, _SIZE, _POINTER])
_explain_json = _call("xbrlmerge_explain_json", _NUMBER, [_POINTER, _SIZE, _POINTER, _SIZE, _POINTER, _SIZE, _SIZE_OUT])
_refusal_name = _call("xbrlmerge_refusal_name", _SIZE, [_NUMBER, _POINTER, _SIZE])

Record = Tuple[int, int, int]
# the record for an accepted report: the numbers of its facts, of their level, and whether it is canonical
Accepted = Tuple[int, int, int]


class Answer(NamedTuple):
    """The result of a call: its status, the text, the number that the call wrote to `needed`, and the refused reports."""

    status: int
    text: bytes
    number: int
    records: List[Record]


def _record(fields: Tuple[Any, ...]) -> Record:
    report, fact, number = fields
    return report, fact, number


def _buffer(size: int) -> Tuple[bytearray, ctypes.c_char]:
    """Returns a buffer and its first byte. While the byte is referenced, the buffer does not move. The buffer has at least one
    byte, because no pointer may be null."""
    held = bytearray(max(size, 1))
    return held, ctypes.c_char.from_buffer(held)


def _ends(reports: Sequence[bytes]) -> "array.array[int]":
    """Returns the position where each report ends, and one more number, because an empty array has no address. It must live until
    the last call that uses its address has returned."""
    return array.array("Q", (*itertools.accumulate(map(len, reports)), 0))


def _answered(call: Callable[..., int], sheet: bytes, reports: Sequence[bytes], *more: int) -> Answer:
    """Makes a call with buffers that are usually large enough. If they are not, repeats the call with larger ones.

    Raises MemoryError, and ValueError if the library rejects the arguments.
    """
    together, count = b"".join(reports), len(reports)
    ends = _ends(reports)
    given = (sheet, len(sheet), together, len(together), ends.buffer_info()[0], count, *more)
    out_length, refusals_length = len(together) + MORE, count
    needed, refused = _SIZE(), _SIZE()
    while True:
        out, first = _buffer(out_length)
        records, first_record = _buffer(refusals_length * REFUSAL.size)
        status = call(*given, ctypes.addressof(first), out_length, needed, ctypes.addressof(first_record), refusals_length, refused)
        if status != TOO_SHORT:
            break
        out_length, refusals_length = max(out_length, needed.value), max(refusals_length, refused.value)
    if status == NO_MEMORY:
        raise MemoryError
    if status in (BAD_ENDS, BAD_LEVEL):
        raise ValueError(f"xbrlmerge: status {status}")
    text = bytes(memoryview(out)[: needed.value]) if status <= REFUSED else b""
    if status == TOO_MUCH:
        return Answer(status, b"", 0, [])
    found = [_record(fields) for fields in REFUSAL.iter_unpack(memoryview(records)[: refused.value * REFUSAL.size])]
    return Answer(status, text, needed.value, found)


def merge(sheet: bytes, reports: Sequence[bytes], level: int) -> Answer:
    return _answered(_merge, sheet, reports, level)


def verdicts(sheet: bytes, reports: Sequence[bytes]) -> Answer:
    return _answered(_verdicts, sheet, reports)


def sources(sheet: bytes, reports: Sequence[bytes]) -> Answer:
    return _answered(_sources, sheet, reports)


def verdicts_json(sheet: bytes, reports: Sequence[bytes], most: int) -> Answer:
    return _answered(_verdicts_json, sheet, reports, most)


def sources_json(sheet: bytes, reports: Sequence[bytes], most: int) -> Answer:
    return _answered(_sources_json, sheet, reports, most)


def check(sheet: bytes, report: bytes) -> Tuple[int, Accepted, Record]:
    """Returns the status, the record for an accepted report, and the record for the refusal. A record that the call does not
    set is all zeros. Raises MemoryError."""
    checked, first = _buffer(CHECKED.size)
    record, first_of_record = _buffer(REFUSAL.size)
    addresses = ctypes.addressof(first), ctypes.addressof(first_of_record)
    status = _check(sheet, len(sheet), report, len(report), *addresses)
    if status == NO_MEMORY:
        raise MemoryError
    return status, _record(CHECKED.unpack_from(checked)), _record(REFUSAL.unpack_from(record))


def check_all(sheet: bytes, reports: Sequence[bytes]) -> Tuple[int, List[Tuple[int, Accepted, Record]], Record]:
    """Returns the status, a result for each report as from `check`, and the record for the refusal of the sheet. If the sheet is
    refused, the results are all zeros. Raises MemoryError."""
    together, count = b"".join(reports), len(reports)
    ends = _ends(reports)
    results, first = _buffer(count * RESULT.size)
    record, first_of_record = _buffer(REFUSAL.size)
    given = (sheet, len(sheet), together, len(together), ends.buffer_info()[0], count)
    status = _check_all(*given, ctypes.addressof(first), count, ctypes.addressof(first_of_record))
    if status == NO_MEMORY:
        raise MemoryError
    found = RESULT.iter_unpack(memoryview(results)[: count * RESULT.size])
    return status, [(it[6], _record(it[:3]), _record(it[3:6])) for it in found], _record(REFUSAL.unpack_from(record))


def explain_json(sheet: bytes, report: bytes) -> Tuple[int, bytes, int]:
    """Returns the status, the lines, and the number that the call wrote to `needed`. Raises MemoryError."""
    length, needed = MORE, _SIZE()
    while True:
        out, first = _buffer(length)
        status = _explain_json(sheet, len(sheet), report, len(report), ctypes.addressof(first), length, needed)
        if status != TOO_SHORT:
            break
        length = needed.value
    if status == NO_MEMORY:
        raise MemoryError
    return status, bytes(memoryview(out)[: needed.value]) if status <= REFUSED else b"", needed.value


def refusal_name(number: int) -> str:
    """Returns the name of a refusal, or an empty text if no refusal has the number."""
    name, first = _buffer(LONGEST_NAME)
    length = _refusal_name(number, ctypes.addressof(first), LONGEST_NAME)
    return name[:length].decode("ascii")
