"""POCKET+ packets of a spacecraft's housekeeping (CCSDS 124.0-B-1, in this project's profile), over libpocket.so.

    >>> with Sender(bits=8) as sender, Receiver(bits=8) as receiver:
    ...     sent = sender.send(b"\\xb0", robustness=1)
    ...     receiver.receive(0, sent.data).content
    b'\\xb0'

A `Desk` runs the commands of the program over bytes by name:

    >>> with Desk() as desk:
    ...     desk.put("x", b"\\xb0")
    ...     desk.run("compress", "in=x", "out=y", "bits=8", "apid=100", "robust=1")
    ...     desk.get("y").hex()
    '0064c000000385b8d600'

The functions of libpocket.so are proved; this module and ctypes are not. The library is the one that the variable POCKET_LIBRARY names,
or the one that was installed with the module, or that the system finds. It takes the standard library alone.
"""

from .calls import Arrival, Counts, Desk, Kind, Receiver, Sender, Sent, run
from .errors import (BitsOutOfRange, Broken, Busy, Closed, CountOutOfRange, Forked, NoState, NotKept, NotText, OutOfMemory, PocketError,
                     Refused, RobustnessOutOfRange, SpareBitSet, StoreError, TooLong, TooManyPackets, TooManyWords, WrongLength)
from .packets import SpacePacket, packed, space_packets
from .receivers import Receivers

__all__ = ["Arrival", "BitsOutOfRange", "Broken", "Busy", "Closed", "Counts", "CountOutOfRange", "Desk", "Forked", "Kind", "NoState", "NotKept",
           "NotText", "OutOfMemory", "PocketError", "Receiver", "Receivers", "Refused", "RobustnessOutOfRange", "Sender", "Sent", "SpareBitSet", "SpacePacket",
           "StoreError", "TooLong", "TooManyPackets", "TooManyWords", "WrongLength", "packed", "run", "space_packets"]

__version__ = "1.1.0"
