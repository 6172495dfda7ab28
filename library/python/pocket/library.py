"""The calls of libpocket.so, by ctypes."""

import ctypes
import ctypes.util
import os
from typing import Any


class Handle(ctypes.Structure):
    _fields_ = [("at", ctypes.c_void_p), ("state", ctypes.c_size_t)]


class Finding(ctypes.Structure):
    _fields_ = [("number", ctypes.c_uint64), ("first_lost", ctypes.c_uint64), ("lost", ctypes.c_uint64), ("kind", ctypes.c_uint32),
                ("value", ctypes.c_uint32), ("mask_alone", ctypes.c_bool)]


class Tally(ctypes.Structure):
    _fields_ = [(name, ctypes.c_uint64) for name in ("packets", "written", "repeats", "listed")]


_BYTES, _SIZE, _HANDLE = ctypes.c_char_p, ctypes.c_size_t, ctypes.POINTER(Handle)
_CALLS = {
    "pocket_sender_open": [_HANDLE, ctypes.c_uint32, _BYTES, _SIZE],
    "pocket_sender_reset": [_HANDLE, _BYTES, _SIZE],
    "pocket_send": [_HANDLE, _BYTES, _SIZE, ctypes.c_bool, ctypes.c_bool, ctypes.c_bool, ctypes.c_uint8, ctypes.c_void_p, _SIZE,
                    ctypes.POINTER(_SIZE), ctypes.POINTER(ctypes.c_uint8)],
    "pocket_sent": [_HANDLE, ctypes.POINTER(ctypes.c_uint64)],
    "pocket_receiver_open": [_HANDLE, ctypes.c_uint32],
    "pocket_receiver_reset": [_HANDLE],
    "pocket_receive": [_HANDLE, ctypes.c_uint16, _BYTES, _SIZE, ctypes.c_void_p, _SIZE, ctypes.POINTER(Finding)],
    "pocket_counts": [_HANDLE, ctypes.POINTER(Tally)],
    "pocket_bits": [_HANDLE, ctypes.POINTER(ctypes.c_uint32)],
    "pocket_desk_open": [_HANDLE],
    "pocket_put": [_HANDLE, _BYTES, _SIZE, _BYTES, _SIZE],
    "pocket_word": [_HANDLE, _BYTES, _SIZE],
    "pocket_run": [_HANDLE, ctypes.c_void_p, _SIZE, ctypes.POINTER(_SIZE), ctypes.POINTER(ctypes.c_uint8)],
    "pocket_get": [_HANDLE, _BYTES, _SIZE, ctypes.c_void_p, _SIZE, ctypes.POINTER(_SIZE)],
    "pocket_remove": [_HANDLE, _BYTES, _SIZE],
    "pocket_name_from": [_HANDLE, _BYTES, _SIZE, ctypes.c_void_p, _SIZE, ctypes.POINTER(_SIZE)],
    "pocket_close": [_HANDLE],
    "pocket_state_bytes": [ctypes.c_uint32, ctypes.c_uint32],
    "pocket_save": [_HANDLE, ctypes.c_void_p, _SIZE, ctypes.POINTER(_SIZE)],
    "pocket_load": [_HANDLE, _BYTES, _SIZE],
    "pocket_status_text": [ctypes.c_uint32],
}
_RESULTS = {"pocket_state_bytes": _SIZE, "pocket_status_text": _BYTES}


def _installed() -> str:
    """The library that stands beside this file (`pip install`), or the one that the system finds. POCKET_LIBRARY names another."""
    beside = os.path.join(os.path.dirname(os.path.abspath(__file__)), "libpocket.so")
    return beside if os.path.exists(beside) else ctypes.util.find_library("pocket") or "libpocket.so.1"


class Library:
    """The calls of the library, which is loaded as one of them is looked for: the tools that need none of them do without."""

    def __getattr__(self, call: str) -> Any:
        if call not in _CALLS:
            raise AttributeError(call)
        name = os.environ.get("POCKET_LIBRARY") or _installed()
        loaded = ctypes.CDLL(name)
        for own, types in _CALLS.items():
            if hasattr(loaded, own):
                function = getattr(loaded, own)
                function.argtypes, function.restype = types, _RESULTS.get(own, ctypes.c_uint32)
                setattr(self, own, function)
        if call not in self.__dict__:
            raise OSError(f"{name} is no libpocket, or one of another version, which has no {call}")
        return self.__dict__[call]


library = Library()
