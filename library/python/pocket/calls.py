"""Senders, receivers and desks in memory, each over a handle of the library."""

import contextlib
import ctypes
import enum
import operator
from dataclasses import dataclass
from typing import Any, Callable, Mapping, Optional, Type, TypeVar, Union, overload

from .errors import BitsOutOfRange, CountOutOfRange, NoState, NotKept, NotText, Refused, RobustnessOutOfRange, TooManyWords, done
from .held import Held, alone
from .library import Finding, Tally, library

MOST_BITS = 49152

#: What has bytes.
Data = Union[bytes, bytearray, memoryview]


def _in_range(number: int, most: int, kind: type, text: str) -> int:
    """A number from 0 to the greatest that the type of a call can say."""
    number = operator.index(number)
    if not 0 <= number <= most:
        raise kind(text)
    return number


def _bits(bits: int) -> int:
    return _in_range(bits, MOST_BITS, BitsOutOfRange, "a vector has 1 to 49152 places")


def _bytes(content: Data) -> tuple[bytes, int]:
    """The bytes of what has a buffer, taken once, and how many they are: what an object says of its length is not asked."""
    own = memoryview(content).tobytes()
    return own, len(own)


def _utf8(text: str) -> tuple[bytes, int]:
    """A name or an argument, and its length."""
    if not isinstance(text, str):
        raise TypeError(f"a name or an argument is a text, and not {type(text).__name__}")
    try:
        return _bytes(text.encode())
    except UnicodeEncodeError:
        raise NotText("it is not UTF-8") from None


class Kind(enum.IntEnum):
    """What is found of a packet that arrived."""

    WRITTEN = 0
    REPEAT = 1
    UNSYNCED = 2
    GAP = 3
    WRONG = 4
    EARLY = 5


@dataclass(frozen=True)
class Sent:
    """The packet of an input."""

    #: The data of the packet, without the header of a Space Packet.
    data: bytes
    #: Its effective robustness level, from 0 to 15: so many packets before it may be missing.
    level: int


@dataclass(frozen=True)
class Arrival:
    """What is found of a packet that arrived."""

    #: Its number, from 0; of a repeat that of the latest packet.
    number: int
    kind: Kind
    #: The level at a gap, the number of the bit at WRONG, of all bits at EARLY, and otherwise 0.
    value: int
    #: The numbers just before it that did not arrive.
    lost: range
    #: It is unsynced or a gap, and its mask became known.
    mask_alone: bool
    #: The ceil(bits / 8) bytes of its content if it is written, and otherwise None.
    content: Optional[bytes]


@dataclass(frozen=True)
class Counts:
    """The numbers of the arrivals so far."""

    #: The packets that arrived, repeats too.
    packets: int
    written: int
    repeats: int
    #: The packets up to the latest arrival that are not written.
    listed: int


_State = TypeVar("_State", bound="_Kept")


class _Load:
    """`load` of a class gives a new sender or receiver with a state, `load` of an open one puts a state of as many bits in place of its own."""

    @overload
    def __get__(self, held: None, kind: Type[_State]) -> Callable[[Data], _State]: ...

    @overload
    def __get__(self, held: _State, kind: Type[_State]) -> Callable[[Data], None]: ...

    def __get__(self, held: Any, kind: Any) -> Any:
        return kind._loaded if held is None else held._load


class _Kept(Held):
    """What has a state, of vectors of so many bits. It is pickled by its state."""

    _kind = 0
    load = _Load()

    def __init__(self, bits: int) -> None:
        super().__init__()

    def _bits(self) -> int:
        bits = ctypes.c_uint32()
        done(library.pocket_bits(self._handle, bits))
        return bits.value

    @property
    @alone
    def bits(self) -> int:
        """The number of bits of its inputs or contents."""
        return self._bits()

    @alone
    def save(self) -> bytes:
        """Its state, from which `load` goes on, on any processor and with any later release."""
        most, length = library.pocket_state_bytes(self._bits(), self._kind), ctypes.c_size_t()
        state = ctypes.create_string_buffer(most)
        done(library.pocket_save(self._handle, state, most, length))
        return ctypes.string_at(state, length.value)

    @alone
    def _load(self, state: Data) -> None:
        done(library.pocket_load(self._handle, *_bytes(state)))

    @classmethod
    def _loaded(cls: Type[_State], state: Data) -> _State:
        own, _ = _bytes(state)
        bits = int.from_bytes(own[6:10], "big")
        if not 1 <= bits <= MOST_BITS:
            raise NoState("it is no state")
        held = cls(bits)
        held._load(own)
        return held

    def __reduce_ex__(self, *_: Any) -> Any:
        return type(self)._loaded, (self.save(),)


class _Packet:
    """Where a call that makes a packet puts it: no byte before it is made."""

    def __init__(self, most: int) -> None:
        self.data, self.length, self.level = ctypes.create_string_buffer(most), ctypes.c_size_t(), ctypes.c_uint8()

    @property
    def is_made(self) -> bool:
        return self.length.value > 0

    def made(self) -> Sent:
        return Sent(ctypes.string_at(self.data, self.length.value), self.level.value)


class Sender(_Kept):
    """Makes the packet of each input of `bits` bits, 1 to 49,152. The first mask has ceil(bits / 8) bytes, or is zeros."""

    _kind = 1

    def __init__(self, bits: int, mask: Data = b"") -> None:
        super().__init__(bits)
        own, bits = _bytes(mask), _bits(bits)
        done(library.pocket_sender_open(self._handle, bits, *own))
        self._most = (10 * bits + 50) // 8
        self._made = self._asked = _Packet(1)

    @alone
    def reset(self, mask: Data = b"") -> None:
        """Begins a new stream, as a new sender of as many bits with this first mask does, in the memory that it has."""
        done(library.pocket_sender_reset(self._handle, *_bytes(mask)))

    @alone
    def send(self, content: Data, robustness: int = 0, *, new_mask: bool = False, send_mask: bool = False, whole: bool = False) -> Sent:
        """The packet of the next input, of ceil(bits / 8) bytes, with a required robustness of 0 to 7 packets."""
        own = _bytes(content)
        robustness = _in_range(robustness, 255, RobustnessOutOfRange, "the required robustness is above 7")
        packet = _Packet(self._most)
        if self._asked.is_made:
            self._made = self._asked
        self._asked = packet
        done(library.pocket_send(self._handle, *own, bool(new_mask), bool(send_mask), bool(whole), robustness, packet.data, len(packet.data),
                                 packet.length, packet.level))
        return packet.made()

    @alone
    def last(self) -> Optional[Sent]:
        """The latest packet that it made, and None before the first. If a call of `send` ended with a KeyboardInterrupt, `sent` tells whether
        its packet was made, and this is it then."""
        latest = self._asked if self._asked.is_made else self._made
        return latest.made() if latest.is_made else None

    @property
    @alone
    def sent(self) -> int:
        """How many packets it made: the number of its next one, whose sequence count is this number modulo 16,384."""
        sent = ctypes.c_uint64()
        done(library.pocket_sent(self._handle, sent))
        return sent.value


class _Finding:
    """Where a call that judges an arrival puts what it finds: no kind before it is found."""

    def __init__(self, size: int) -> None:
        self.found, self.content = Finding(kind=len(Kind)), ctypes.create_string_buffer(size)

    @property
    def is_made(self) -> bool:
        return bool(self.found.kind != len(Kind))

    def made(self) -> Arrival:
        found, kind = self.found, Kind(self.found.kind)
        content = self.content.raw if kind == Kind.WRITTEN else None
        return Arrival(found.number, kind, found.value, range(found.first_lost, found.first_lost + found.lost), found.mask_alone, content)


class Receiver(_Kept):
    """Judges the packets of a sender of `bits` bits, 1 to 49,152, as they arrive, whichever were lost."""

    _kind = 2

    def __init__(self, bits: int) -> None:
        super().__init__(bits)
        bits = _bits(bits)
        done(library.pocket_receiver_open(self._handle, bits))
        self._size = (bits + 7) // 8
        self._judged = self._asked = _Finding(0)

    @alone
    def reset(self) -> None:
        """Begins a new stream, as a new receiver of as many bits does, in the memory that it has."""
        done(library.pocket_receiver_reset(self._handle))

    @alone
    def receive(self, count: int, data: Data) -> Arrival:
        """What is found of the next packet that arrived, by its sequence count, 0 to 16,383, and at most 65,536 bytes of data."""
        own = _bytes(data)
        count = _in_range(count, 65535, CountOutOfRange, "the sequence count is above 16383")
        finding = _Finding(self._size)
        if self._asked.is_made:
            self._judged = self._asked
        self._asked = finding
        done(library.pocket_receive(self._handle, count, *own, finding.content, self._size, finding.found))
        return finding.made()

    @alone
    def last(self) -> Optional[Arrival]:
        """What was found of the latest arrival, and None before the first. If a call of `receive` ended with a KeyboardInterrupt, `counts`
        tells whether its packet was judged, and this is what was found of it then."""
        latest = self._asked if self._asked.is_made else self._judged
        return latest.made() if latest.is_made else None

    @alone
    def counts(self) -> Counts:
        """The numbers of the arrivals so far."""
        tally = Tally()
        done(library.pocket_counts(self._handle, tally))
        return Counts(tally.packets, tally.written, tally.repeats, tally.listed)

    @property
    def next_number(self) -> int:
        """The number of the next packet, if none is lost before it: as many are written or listed."""
        counts = self.counts()
        return counts.written + counts.listed


class Desk(Held):
    """A desk in memory: bytes that are kept under names, which the commands of the program read and write."""

    def __init__(self) -> None:
        super().__init__()
        done(library.pocket_desk_open(self._handle))

    @alone
    def put(self, name: str, content: Data) -> None:
        """Keeps bytes under a name, in place of what was kept under it."""
        done(library.pocket_put(self._handle, *_utf8(name), *_bytes(content)))

    @alone
    def run(self, *words: str) -> None:
        """Runs the command of the words: the verb, and its words in any order. A command that is refused raises `Refused`. If there is no
        memory for the words, the desk is closed."""
        coded = [_utf8(word) for word in words]
        if len(coded) > 1000:
            raise TooManyWords("the command has too many arguments")
        text, length, exit_number = ctypes.create_string_buffer(128), ctypes.c_size_t(), ctypes.c_uint8()
        try:
            for word in coded:
                if status := library.pocket_word(self._handle, *word):
                    self._close(self._handle)
                    break
            else:
                status = library.pocket_run(self._handle, text, len(text), length, exit_number)
        except BaseException:
            # (an interrupt: the words that are there end with a wrong one, are refused and gone)
            library.pocket_word(self._handle, b"", 0)
            library.pocket_run(self._handle, text, len(text), length, exit_number)
            raise
        done(status)
        if exit_number.value:
            raise Refused(ctypes.string_at(text, length.value).decode(), exit_number.value)

    @alone
    def get(self, name: str) -> bytes:
        """What is kept under a name: no byte if nothing is kept under it."""
        return self._found(library.pocket_get, *_utf8(name))

    @alone
    def remove(self, name: str) -> None:
        """Removes what is kept under a name, and gives its memory back. Raises `NotKept` if nothing is kept under it."""
        done(library.pocket_remove(self._handle, *_utf8(name)))

    @alone
    def names(self) -> list[str]:
        """The names under which something is kept, in the order of their bytes."""
        names, least = [], b""
        with contextlib.suppress(NotKept):
            while True:
                name = self._found(library.pocket_name_from, least, len(least))
                names.append(name.decode())
                least = name + b"\0"
        return names

    def _found(self, call: Any, text: bytes, size: int) -> bytes:
        """The bytes that a call gives, in a room that is long enough."""
        length, room, status = ctypes.c_size_t(128), 0, 11
        while status == 11 and room != length.value:
            room = length.value
            found = ctypes.create_string_buffer(room)
            status = call(self._handle, text, size, found, room, length)
        done(status)
        return ctypes.string_at(found, length.value)


def run(*words: str, inputs: Optional[Mapping[str, Data]] = None) -> dict[str, bytes]:
    """Runs one command of the program in memory, over inputs by name. Gives what it wrote, by the names of the words out= and report=."""
    with Desk() as desk:
        for name, content in (inputs or {}).items():
            desk.put(name, content)
        desk.run(*words)
        return {name: desk.get(name) for key, _, name in (word.partition("=") for word in words) if key in ("out", "report")}
