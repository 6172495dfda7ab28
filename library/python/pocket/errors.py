"""What a call that is refused raises."""

from .library import library


class PocketError(Exception):
    """A call that was refused. Nothing has changed."""


class OutOfMemory(PocketError, MemoryError):
    """There is no memory for a new sender or receiver, or for what a desk is to keep."""


class Closed(PocketError, ValueError):
    """The sender, the receiver or the desk is closed."""


class Busy(PocketError):
    """A call within a call of the same sender, receiver or desk: by a signal handler or a finalizer that came between."""


class Forked(PocketError):
    """The sender, the receiver or the desk was opened by another process, of which this one is a copy: each opens its own."""


class BitsOutOfRange(PocketError, ValueError):
    """The number of bits is not from 1 to 49,152."""


class WrongLength(PocketError, ValueError):
    """An input or a first mask has not ceil(bits / 8) bytes."""


class SpareBitSet(PocketError, ValueError):
    """A bit after the last one, in the last byte of an input or a first mask, is 1."""


class RobustnessOutOfRange(PocketError, ValueError):
    """The required robustness is not from 0 to 7."""


class CountOutOfRange(PocketError, ValueError):
    """The sequence count is not from 0 to 16,383."""


class TooLong(PocketError, ValueError):
    """A packet has more than 65,536 bytes of data."""


class TooManyPackets(PocketError):
    """4,294,967,296 packets were sent or received."""


class NotText(PocketError, ValueError):
    """A name or a word is not UTF-8."""


class TooManyWords(PocketError, ValueError):
    """A command has 1,000 arguments."""


class NotKept(PocketError, LookupError):
    """Nothing is kept at a desk under the name."""


class Refused(PocketError):
    """A command at a desk that was refused, with the refusal's text. The names of its outputs keep what they had, unless writing failed."""

    def __init__(self, text: str, exit_number: int) -> None:
        super().__init__(text, exit_number)
        #: The exit status of the program, 1 to 5.
        self.exit_number = exit_number

    def __str__(self) -> str:
        return str(self.args[0])


class NoState(PocketError, ValueError):
    """Bytes that are no state of this kind: damaged, cut, or of another version."""


class Broken(PocketError):
    """The memory of a sender or a receiver was damaged. It can only be closed."""


class StoreError(PocketError, ValueError):
    """Bytes that are no Space Packets, or none of whole packets."""


# What the answers of the library (pocket_status, pocket.h) raise. All others are PocketErrors.
REFUSED = {1: OutOfMemory, 2: Closed, 5: BitsOutOfRange, 6: WrongLength, 7: SpareBitSet, 8: WrongLength, 9: SpareBitSet, 10: RobustnessOutOfRange,
           12: TooManyPackets, 13: CountOutOfRange, 14: TooLong, 15: NotText, 16: TooManyWords, 17: NotKept, 252: NoState, 253: NoState, 254: Broken}


def done(status: int) -> None:
    """Raises what an answer stands for, with the library's text of it, unless the call was done."""
    if status:
        raise REFUSED.get(status, PocketError)(library.pocket_status_text(status).decode())
