"""Turns what wasm2c makes of a WebAssembly module into the generated part of a C file.

wasm2c (Debian's package wabt) writes one statement a line. Its statements stay as they are, but for these, which stand on machine.c:

- an access to the memory, a filling, a copy, a division, and what cannot be reached end the function by `goto trap` if they are wrong;
- a call that was ended so ends its caller;
- a function that takes a frame of the stack is asked once whether it fits;
- accesses that are made together are checked together (joined.py), but for a module whose accesses may lie in the caller's memory too.

A line of any other form is an error, so another wabt is not taken by chance. No function calls itself, so the deepest stack is known: the
largest sum of frames on a way of calls.
"""

import graphlib
import re
from dataclasses import dataclass

import joined

MEMORY = r"&instance->w2c_memory"
VALUE = r"w2c_[ijlp]\d+"

HEAD = re.compile(r"^static (void|u32|u64) w2c_(\w+)\(Z_pocket_instance_t\* instance((?:, u(?:32|64) w2c_p\d+)*)\) \{$", re.M)
LOCALS = re.compile(rf"^  (?:u32|u64) {VALUE}(?: = 0)?(?:, {VALUE}(?: = 0)?)*;$")
CAST = r"(?:\((?:u|s)(?:8|16|32|64)\))*"
GOTO = r"goto w2c_[BL](?:\d+|func);"
SIGNED = rf"\(\(s(?:32|64)\){VALUE} (?:>>|<|>|<=|>=) \(?(?:\(s(?:32|64)\))?{VALUE}(?: & (?:31|63)\))?\)"
# What stays as it is.
PLAIN = re.compile("|".join((
    rf"{VALUE} (?:=|\+=|-=|\*=|&=|\|=|\^=) {CAST}\(?{VALUE}\)?;", rf"{VALUE} = \d+u(?:ll)?;", rf"{VALUE} = !\({VALUE}\);",
    rf"{VALUE} (?:<<|>>)= \({VALUE} & (?:31|63)\);", rf"{VALUE} = \(u(?:32|64)\){SIGNED};",
    rf"{VALUE} = {VALUE} (?:==|!=|<|>|<=|>=) {VALUE};", rf"{VALUE} = {VALUE} \? {VALUE} : {VALUE};",
    rf"{VALUE} = I(?:32|64)_(?:CLZ|CTZ|POPCNT)\({VALUE}\);", rf"{VALUE} = I(?:32|64)_ROT[LR]\({VALUE}, {VALUE}\);", rf"enter(?:_leaf)?\({VALUE}, \d+\);",
    rf"if \(w2c_i\d+\) \{{{GOTO}\}}", rf"{GOTO}", r"w2c_[BL](?:\d+|func):;?", r"switch \(w2c_i\d+\) \{", rf"case \d+: {GOTO}", rf"default: {GOTO}",
    r"\}", r"return w2c_[ij]0;")))
# All else: a form, and the statement that stands in its place in a module of this name.
ENGINE = r"\)\(instance->Z_env_instance"
RULES = [(re.compile(form), statement) for form, statement in (
    (rf"({VALUE}) = (i(?:32|64)_load(?:8_u|8_s|16_u|16_s|32_u|32_s)?)\({MEMORY}, \(u64\)\((w2c_i\d+)\)(?: \+ (\d+)u)?\);",
     lambda it, _: f"{it[2]}({it[1]}, {it[3]}, {it[4] or 0});"),
    (rf"(i(?:32|64)_store(?:8|16|32)?)\({MEMORY}, \(u64\)\((w2c_i\d+)\)(?: \+ (\d+))?, ({VALUE})\);",
     lambda it, _: f"{it[1]}({it[4]}, {it[2]}, {it[3] or 0});"),
    (rf"memory_(fill|copy)\((?:{MEMORY}, )+({VALUE}, {VALUE}, {VALUE})\);", lambda it, _: f"memory_{it[1]}({it[2]});"),
    (rf"({VALUE} = )?w2c_(\w+)\(instance((?:, {VALUE})*)\);", lambda it, name: f"call({it[1] or ''}{name}_{it[2]}(m, last{it[3]}));"),
    (rf"({VALUE} = )?\(\*Z_envZ_rattle_(alloc|realloc|dealloc|place){ENGINE}((?:, {VALUE})*)\);",
     lambda it, _: f"call({it[1] or ''}heap_{it[2]}(m, last{it[3]}));"),
    (rf"({VALUE}) = \(\*Z_envZ_rattle_equal{ENGINE}((?:, {VALUE}){{3}})\);", lambda it, _: f"memory_equal({it[1]}{it[2]});"),
    (rf"({VALUE}) = \(\*Z_envZ_rattle_(turn(?:32|64)){ENGINE}, ({VALUE})\);", lambda it, _: f"{it[1]} = {it[2]}({it[3]});"),
    (rf"({VALUE}) = (DIV|REM)_U\(({VALUE}, {VALUE})\);", lambda it, _: f"{it[2].lower()}_u({it[1]}, {it[3]});"),
    (rf"instance->w2c_g0 = ({VALUE});", lambda it, _: f"set_stack({it[1]});"),
    (r"UNREACHABLE;", lambda *_: "goto trap;"))]
ENTRY = re.compile(
    r"^  w2c_j0 = instance->w2c_g0;\n  w2c_j1 = (\d+)ull;\n  w2c_j0 -= w2c_j1;\n  (w2c_[lp]\d+) = w2c_j0;\n(  instance->w2c_g0 = w2c_j0;\n)?", re.M)
# The cases of a switch, and whither all other numbers lead: a case that leads there too is left out.
SWITCH = re.compile(rf"^ *switch \(w2c_i\d+\) \{{\n(?: *case \d+: {GOTO}\n)* *default: ({GOTO})\n", re.M)
# A frame's address that nothing uses: the next value takes its place.
UNUSED = re.compile(r"^  w2c_j0 = instance->w2c_g0;\n  w2c_j1 = \d+ull;\n  w2c_j0 -= w2c_j1;\n(?=  w2c_j0 = (?!w2c_j))", re.M)
# The same of a function that calls no other one, if other values are read before the frame's address is reckoned.
LATE = re.compile(
    r"^  w2c_j0 = instance->w2c_g0;\n  (w2c_l\d+) = w2c_j0;\n((?:  .*\n)*?)  w2c_j0 = \1;\n  w2c_j1 = (\d+)ull;\n  w2c_j0 -= w2c_j1;\n  \1 = w2c_j0;\n",
    re.M)


class OtherForm(Exception):
    """What wasm2c wrote is not of the form that is known here."""


@dataclass
class Function:
    """A function of the module: whom it calls, its text, and the bytes of its frame."""

    name: str
    result: str
    parameters: str
    module: str
    calls: set
    text: str = ""
    frame: int = 0

    def head(self):
        return f"static {self.result} {self.module}_{self.name}(uint8_t *const m, const u32 last{self.parameters})"


@dataclass
class Module:
    """What the generated part is made from."""

    functions: dict
    top: int        # the address at which the stack ends and the data begin
    heap: int       # the address after the data
    data: bytes

    def reached(self, roots):
        """The functions that these call, themselves too."""
        found, more = set(), set(roots)
        while more:
            found |= more
            more = set().union(*(self.functions[it].calls for it in more)) - found
        return found

    def deepest(self, roots):
        """The most bytes of the stack that a call of one of these takes."""
        depths, calls = {}, {it: self.functions[it].calls for it in self.reached(roots)}
        try:
            for name in graphlib.TopologicalSorter(calls).static_order():
                depths[name] = self.functions[name].frame + max((depths[it] for it in calls[name]), default=0)
        except graphlib.CycleError as error:
            raise OtherForm(f"{error.args[1][0]} calls itself") from None
        return max(depths[it] for it in roots)


def short(text):
    """A statement with the short names."""
    return re.sub(r"\bw2c_([ijlpBL](?:\d+|func))\b", r"\1", text)


def made(function, line):
    """A statement of the generated part."""
    if PLAIN.fullmatch(line):
        return line
    for form, statement in RULES:
        if found := form.fullmatch(line):
            return statement(found, function.module)
    raise OtherForm(f"{function.name}: {line!r}")


def entry_first(text):
    """The text of a function in which the frame's address is reckoned before all else, if nothing between uses it or leads elsewhere."""
    text = UNUSED.sub("", text)
    late = LATE.search(text)
    if not late or re.search(rf"\b{late[1]}\b|goto |:;$|instance->w2c_g0", late[2], re.M):
        return text
    entry = f"  w2c_j0 = instance->w2c_g0;\n  w2c_j1 = {late[3]}ull;\n  w2c_j0 -= w2c_j1;\n  {late[1]} = w2c_j0;\n"
    return f"{text[:late.start()]}{entry}{late[2]}  w2c_j0 = {late[1]};\n{text[late.end():]}"


def frame_of(function, text):
    """Gives the text of a function with its entry in one line, if it has a frame."""
    text = entry_first(text)
    entry = ENTRY.search(text)
    if not entry:
        return text
    function.frame = int(entry[1])
    if text.count("= instance->w2c_g0;") != 1:
        raise OtherForm(f"{function.name} has another frame")
    word = "enter" if entry[3] else "enter_leaf"
    return ENTRY.sub(f"  {word}({entry[2]}, {entry[1]});\n  w2c_j0 = {entry[2]};\n", text)


def filled(function, text, joins):
    """Makes the text of a function from what wasm2c wrote between its braces."""
    locals_, lines = [], []
    text = SWITCH.sub(lambda it: re.sub(rf"^ *case \d+: {it[1]}\n", "", it[0], flags=re.M), text)
    for line in frame_of(function, text).split("\n"):
        if LOCALS.match(line):
            locals_.append(short(line))
        elif line.strip() not in ("FUNC_PROLOGUE;", "FUNC_EPILOGUE;", ""):
            lines.append(re.match(" *", line)[0] + short(made(function, line.strip())))
    last = "  return;" if function.result == "void" else "  return 0;"
    end = ["  return;"] if function.result == "void" else []
    text = "\n".join([*locals_, *(joined.of(lines) if joins else lines), *end, "  trap:", "  set_broken(m);", last])
    function.text = f"{function.head()} {{\n{text}\n}}\n"


def functions_of(text, name, joins):
    """The functions of a module, by name."""
    found = {}
    for head in HEAD.finditer(text):
        body = text[head.end() + 1:text.index("\n}\n", head.end())]
        found[head[2]] = Function(head[2], head[1], short(head[3]), name, set(re.findall(r"\bw2c_(\w+)\(instance", body)))
        filled(found[head[2]], body, joins)
    return found


def module_of(text, name, joins):
    """What a module is, from the text that wasm2c wrote: with this name before those of its functions."""
    text = re.sub(r", \n +", ", ", text)
    numbers = dict(re.findall(r"^  instance->w2c_(g0|__heap_base) = (\d+)ull;$", text, re.M))
    if len(numbers) != 2 or "CALL_INDIRECT(instance" in text:
        raise OtherForm("the module has other globals, or calls by a table")
    arrays = re.findall(r"^static const u8 data_segment_data_w2c_d\d+\[\] = \{(.*?)\};", text, re.M | re.S)
    data = [bytes(int(it, 16) for it in re.findall(r"0x([0-9a-f]{2})", one)) for one in arrays]
    loaded = re.findall(r"^  LOAD_DATA\(instance->w2c_memory, (\d+)u, data_segment_data_w2c_d\d+, (\d+)\);$", text, re.M)
    top, heap = int(numbers["g0"]), int(numbers["__heap_base"])
    if len(data) != len(loaded) or len(data) > 1 or [int(it) for it, _ in loaded] not in ([], [top]):
        raise OtherForm("the module has other data")
    return Module(functions_of(text, name, joins), top, heap, b"".join(data))
