"""What the tools of `python3 -m pocket` share: their words, their files, and what is wrong with them."""

import contextlib
import difflib
import os
import re
import shutil
import sys
from typing import BinaryIO, Callable, Dict, Iterator, List, Optional, Sequence, Tuple, Union

# The status of a tool that has written what it makes, and told something that has to be looked at first.
LOOK = 3
# Names of standard output beside `-`.
STANDARD = ("/dev/stdout", "/dev/fd/1", "/proc/self/fd/1")

Tell = Callable[[str], None]


class ToolError(ValueError):
    """What a tool refuses, with its place, and the status."""

    def __init__(self, text: str, status: int = 1) -> None:
        super().__init__(text)
        self.status = status


def near(word: str, known: Sequence[str], end: str = "") -> str:
    """The known word that is meant, if one is near, and else all of them."""
    found = difflib.get_close_matches(word, known, 1)
    return f"did you mean {found[0]}{end}?" if found else f"the arguments are {', '.join(one + end for one in known)}"


def given(words: Sequence[str], keys: Sequence[str], needed: Sequence[str]) -> Dict[str, str]:
    """What words `key=value` say, each key once at most."""
    found: Dict[str, str] = {}
    for word in words:
        key, equals, value = word.partition("=")
        if not equals or key not in keys:
            raise ToolError(f"{word}: {near(key, keys, '=')}")
        if key in found:
            raise ToolError(f"{key}= is given twice")
        found[key] = value
    for key in needed:
        if key not in found:
            raise ToolError(f"{key}= is missing")
    return found


def whole_number(text: str, least: int, most: int) -> Optional[int]:
    """The number that a text spells in plain digits, if it is within its bounds."""
    if not re.fullmatch(r"-?(0|[1-9][0-9]{0,19})", text) or text == "-0":
        return None
    return int(text) if least <= int(text) <= most else None


def number_of(said: Dict[str, str], key: str, least: int, most: int) -> Optional[int]:
    """The number that a key is given, or None if it isn't."""
    if key not in said:
        return None
    found = whole_number(said[key], least, most)
    if found is None:
        raise ToolError(f"{key}={said[key]}: {key}= takes a number from {least} to {most}")
    return found


def opened(name: str) -> BinaryIO:
    """A file to read, or standard input if its name is `-`."""
    try:
        if name == "-":
            # (else what hasn't come yet would be taken as the end)
            os.set_blocking(0, True)
        return open(0 if name == "-" else name, "rb", closefd=name != "-")
    except (OSError, ValueError) as error:
        raise ToolError(f"{name}: {getattr(error, 'strerror', None) or error}") from error


def contents(name: str) -> bytes:
    """The bytes of a file, or of standard input if its name is `-`."""
    with opened(name) as source:
        return read(source, -1)


def read(source: BinaryIO, size: int) -> bytes:
    """So many bytes, or fewer at the end."""
    try:
        return source.read(size)
    except OSError as error:
        raise ToolError(f"{source.name or '-'}: {error.strerror}") from error


def is_one(name: str, other: Union[str, int]) -> bool:
    """Whether a name is that of another one's file, or of one that is open under a number."""
    with contextlib.suppress(OSError):
        return os.path.samestat(os.stat(other), os.stat(name))
    return False


class Output:
    """What a tool writes: standard output if its name is `-`, a device or a pipe, or else NAME.part, which takes its name when all is done."""

    def __init__(self, name: str, used: Sequence[Union[str, int]], others: Sequence[str]) -> None:
        self.target = self.part = ""
        if name == "-":
            if sys.stdout is None:
                raise ToolError("standard output is closed")
            self.file: BinaryIO = open(1, "wb", closefd=False)
            return
        path = os.path.realpath(name)
        try:
            # (a pipe by a name of /dev/fd has no path)
            if os.path.exists(name) and not os.path.isfile(name):
                self.file = open(name, "wb")
                return
            for own in (path, path + ".part"):
                if any(is_one(own, other) for other in used) or own in others:
                    raise ToolError(f"{name}: {own} is read or written under another name")
            if os.path.islink(name) and not os.path.exists(path):
                raise ToolError(f"{name} is a link to nothing")
            if os.path.islink(path + ".part") or (os.path.exists(path + ".part") and not os.path.isfile(path + ".part")):
                raise ToolError(f"{name}: {path}.part is no regular file")
            self.file, self.target, self.part = open(path + ".part", "wb"), path, path + ".part"
            if os.path.exists(path):
                shutil.copymode(path, self.part)
        except (OSError, ValueError) as error:
            raise error if isinstance(error, ToolError) else ToolError(f"{name}: {getattr(error, 'strerror', None) or error}") from error

    def finish(self) -> None:
        """Hands over all that was written."""
        self.file.flush()
        if self.part:
            os.fsync(self.file.fileno())

    def take_name(self) -> None:
        """Gives the file its name."""
        if self.part:
            os.replace(self.part, self.target)


@contextlib.contextmanager
def outputs(tool: str, said: Dict[str, str], inputs: Sequence[str]) -> Iterator[Tuple[BinaryIO, Tell]]:
    """Where a tool that reads these inputs writes, by `out=`, and what tells a line, by `report=`: standard output and standard error if they
    aren't named."""
    said_ones = [said.get("out", "-"), *([said["report"]] if "report" in said else [])]
    names = ["-" if name in STANDARD else name for name in said_ones]
    if names == ["-", "-"]:
        raise ToolError("standard output is one output")
    if inputs.count("-") > 1:
        raise ToolError("standard input is one file")
    used: List[Union[str, int]] = [1] if "-" in names else []
    used.extend(0 if name == "-" else name for name in inputs)
    made: List[Output] = []
    for name in names:
        made.append(Output(name, used, [path for one in made if one.part for path in (one.target, one.part)]))

    def tell(text: str) -> None:
        if len(made) > 1:
            made[1].file.write(text.encode(errors="surrogateescape") + b"\n")
        elif sys.stderr is not None:
            with contextlib.suppress(OSError):
                print(f"pocket {tool}: {text}", file=sys.stderr, flush=True)

    try:
        try:
            yield made[0].file, tell
        finally:
            for one in made:
                one.finish()
        for one in made:
            one.take_name()
    finally:
        for one in made:
            # (what could not be written was told, or is told now)
            with contextlib.suppress(OSError):
                one.file.close()
