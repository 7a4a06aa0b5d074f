"""The functions of `ucstore_db.h`, called through ctypes: see `Db`."""

from __future__ import annotations

import ctypes
import os
import threading
from pathlib import Path
from typing import Any, Callable, Dict, Optional, Sequence

from . import BadOption, Operator, UcstoreError
from ._db_types import DbOptions, DbStats, Event, EventKind, Progress, error_of

# Statuses that are not raised as errors.
OK, NOT_FOUND, ROOM = 0, 4, 14

_Pointer, _Size, _U64 = ctypes.c_void_p, ctypes.c_size_t, ctypes.c_uint64

# Value that means no sequence number.
_NONE = (1 << 64) - 1


class _Progress(ctypes.Structure):
    _fields_ = [("file", ctypes.c_char_p), ("read", _U64), ("whole", _U64)]


class _Event(ctypes.Structure):
    _fields_ = [
        ("kind", ctypes.c_uint32), ("status", ctypes.c_int32), ("runs", _U64), ("bytes", _U64), ("microseconds", _U64),
        ("text", ctypes.c_char_p),
    ]


_ProgressFunction = ctypes.CFUNCTYPE(None, _Pointer, ctypes.POINTER(_Progress))
_EventFunction = ctypes.CFUNCTYPE(None, _Pointer, ctypes.POINTER(_Event))


# Number of the directory's own operator.
_OWN_OPERATOR = 255


class Options(ctypes.Structure):
    _fields_ = [
        ("size", _Size), ("merge_operator", ctypes.c_uint32), ("sync", ctypes.c_uint32), ("sync_milliseconds", _U64),
        ("write_buffer_size", _U64), ("compaction_trigger", ctypes.c_uint32), ("stop_trigger", ctypes.c_uint32),
        ("size_ratio", ctypes.c_uint32), ("max_size_amplification_percent", ctypes.c_uint32),
        ("min_merge_width", ctypes.c_uint32), ("max_merge_width", ctypes.c_uint32), ("compactors", ctypes.c_uint32),
        ("slow_trigger", ctypes.c_uint32), ("checkpoint_ratio", _U64), ("checkpoint_least", _U64),
        ("recovers_to_fault", ctypes.c_uint32), ("progress", _ProgressFunction), ("progress_context", _Pointer),
        ("event", _EventFunction), ("event_context", _Pointer), ("recover_to", _U64), ("give_up_until", _U64),
        ("marks", ctypes.POINTER(_U64)), ("marks_count", _Size), ("must_exist", ctypes.c_uint32), ("read_only", ctypes.c_uint32),
        ("compact_when_idle_milliseconds", _U64), ("checkpoint_bytes_per_second", _U64),
    ]

    @classmethod
    def of(cls, operator: Optional[Operator], options: DbOptions) -> Options:
        """Returns the options as a C struct. Raises `BadOption` for a number that its field would truncate."""
        number = _OWN_OPERATOR if operator is None else operator
        found = cls(ctypes.sizeof(cls), number, recover_to=_NONE, give_up_until=_NONE, **options._asdict())
        if any(getattr(found, name) != value for name, value in zip(DbOptions._fields, options)):
            raise BadOption()
        return found

    def recover(self, to: Optional[int], give_up_until: Optional[int], marks: Sequence[int]) -> None:
        """Sets the options of recovery. Raises `BadOption` for a number that is no sequence number."""
        if not all(0 <= sequence < _NONE for sequence in (to or 0, give_up_until or 0, *marks)):
            raise BadOption()
        self.recover_to = _NONE if to is None else to
        self.give_up_until = _NONE if give_up_until is None else give_up_until
        self.marks, self.marks_count = (_U64 * len(marks))(*marks), len(marks)


class Stats(ctypes.Structure):
    _fields_ = [("size", _Size), *((name, _U64) for name in DbStats._fields)]


# Argument types. A byte string is a pointer and a length.
_TEXT = (ctypes.c_char_p, _Size)
_PLACE = (_Pointer, _Size)
_GET = (_Pointer, *_TEXT, *_PLACE, _Pointer)
_GET_MANY = (_Pointer, *_TEXT, _Pointer, _Size, _Pointer, *_PLACE, _Pointer)
_CURSOR = (_Pointer, *_TEXT, *_TEXT, ctypes.c_bool, _Pointer)
_PREFIX = (_Pointer, *_TEXT, _Pointer)

_SIGNATURES: Dict[str, Sequence[Any]] = {
    "open": (ctypes.c_char_p, _Pointer, _Pointer),
    "in_memory": (_Pointer, _Pointer),
    "end": (_Pointer,),
    "close": (_Pointer,),
    "put": (_Pointer, *_TEXT, *_TEXT),
    "merge": (_Pointer, *_TEXT, *_TEXT),
    "merge_as": (_Pointer, ctypes.c_uint32, ctypes.c_uint32, *_TEXT, *_TEXT),
    "delete": (_Pointer, *_TEXT),
    "delete_range": (_Pointer, *_TEXT, *_TEXT),
    "write": (_Pointer, _Pointer),
    "write_with": (_Pointer, _Pointer, ctypes.c_bool),
    "write_bytes": (_Pointer, *_TEXT, ctypes.c_bool),
    "sync": (_Pointer,),
    "get": _GET,
    "get_many": _GET_MANY,
    "cursor": _CURSOR,
    "prefix": _PREFIX,
    "snapshot": (_Pointer, _Pointer),
    "take_mark": (_Pointer, _U64, _Pointer),
    "flush": (_Pointer,),
    "compact": (_Pointer,),
    "checkpoint": (_Pointer,),
    "checkpoint_to": (_Pointer, _Pointer),
    "backup": (_Pointer, ctypes.c_char_p, _Pointer),
    "refresh": (_Pointer, _Pointer),
    "next_log": (_Pointer,),
    "failure": (_Pointer,),
    "stats": (_Pointer, _Pointer),
    "stats_text": (_Pointer, *_PLACE, _Pointer),
    "batch_create": (_Pointer,),
    "batch_put": (_Pointer, *_TEXT, *_TEXT),
    "batch_merge": (_Pointer, *_TEXT, *_TEXT),
    "batch_merge_as": (_Pointer, ctypes.c_uint32, ctypes.c_uint32, *_TEXT, *_TEXT),
    "batch_delete": (_Pointer, *_TEXT),
    "batch_delete_range": (_Pointer, *_TEXT, *_TEXT),
    "batch_clear": (_Pointer,),
    "batch_count": (_Pointer, _Pointer),
    "batch_close": (_Pointer,),
    "snapshot_again": (_Pointer, _Pointer),
    "snapshot_sequence": (_Pointer, _Pointer),
    "snapshot_get": _GET,
    "snapshot_get_many": _GET_MANY,
    "snapshot_cursor": _CURSOR,
    "snapshot_prefix": _PREFIX,
    "snapshot_close": (_Pointer,),
    "cursor_last": (_Pointer,),
    "cursor_page": (_Pointer, *_PLACE, *_PLACE, _Pointer, _Pointer),
    "cursor_close": (_Pointer,),
    "transaction_begin": (_Pointer, _Pointer),
    "transaction_get": _GET,
    "transaction_get_unchecked": _GET,
    "transaction_page": (_Pointer, *_TEXT, *_TEXT, ctypes.c_bool, *_PLACE, *_PLACE, _Pointer, _Pointer),
    "transaction_put": (_Pointer, *_TEXT, *_TEXT),
    "transaction_merge": (_Pointer, *_TEXT, *_TEXT),
    "transaction_delete": (_Pointer, *_TEXT),
    "transaction_delete_range": (_Pointer, *_TEXT, *_TEXT),
    "transaction_commit": (_Pointer,),
    "transaction_rollback": (_Pointer,),
    "transaction_close": (_Pointer,),
}

# Version of the library's binary interface.
_ABI = 2

# A function of the library, which returns a status.
_Function = Callable[..., int]


class Library:
    """The functions of `ucstore_db.h`, without their prefix."""

    def __init__(self) -> None:
        name = f"libucstore_db.so.{_ABI}"
        beside = Path(__file__).with_name(name)
        found = ctypes.CDLL(os.environ.get("UCSTORE_DB_LIBRARY") or (str(beside) if beside.exists() else name))
        if found.ucstore_db_version() != _ABI:
            raise ImportError(f"{found._name} does not have ABI version {_ABI}")
        self.error_text = found.ucstore_db_error_text
        self.error_text.restype = ctypes.c_char_p
        self.functions: Dict[str, _Function] = {}
        for name, types in _SIGNATURES.items():
            function = getattr(found, f"ucstore_db_{name}")
            function.argtypes, function.restype = types, ctypes.c_int32
            self.functions[name] = function

    def error(self, status: int) -> UcstoreError:
        """Returns the exception for the status of this thread's last call."""
        return error_of(status, self.error_text().decode(errors="replace"))


_loaded: Optional[Library] = None
_loading = threading.Lock()


def library() -> Library:
    """Returns the library, which is loaded once."""
    global _loaded
    with _loading:
        if _loaded is None:
            _loaded = Library()
        return _loaded


def progress_function(tell: Optional[Callable[[Progress], None]]) -> Any:
    """Returns a callback for C that reports the progress of an opening."""
    if tell is None:
        return _ProgressFunction(0)

    hear: Callable[[Progress], None] = tell

    def told(_: Any, progress: Any) -> None:
        found = progress.contents
        hear(Progress(found.file.decode(), found.read, found.whole))

    return _ProgressFunction(told)


def event_function(tell: Optional[Callable[[Event], None]]) -> Any:
    """Returns a callback for C that reports events. It ignores kinds that this module does not know."""
    if tell is None:
        return _EventFunction(0)

    hear: Callable[[Event], None] = tell

    def told(_: Any, event: Any) -> None:
        found = event.contents
        if found.kind <= max(EventKind):
            text = found.text.decode(errors="replace")
            error = error_of(found.status, text) if found.kind == EventKind.FAILED else None
            hear(Event(EventKind(found.kind), found.runs, found.bytes, found.microseconds / 1e6, text, error))

    return _EventFunction(told)
