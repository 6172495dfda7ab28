"""Leaves out of the text of the library's module what no call of a sender or a receiver comes to, for pocket.c. Each rule has its reason, and a wrong
one ends the call, which then answers POCKET_BROKEN:

- Memory is given back only with the whole block, as a handle is closed: so nothing is done to give back a part of it, or what a handle
  held.
- Memory that an opening asks for is there: pocket.h tells how much that is, for each number of bits. The heap ends the call if it isn't
  (`heap_place`, calls.c).
- The two places of a copy lie apart: the contract of `copy_bits`, by which all slices are copied, asks for it. A copy upon itself ends
  the call (`copied`, calls.c).
- Bytes are compared by one function written by hand (`memory_equal`), as they are copied and filled. The library's compares 64 at once, by
  instructions that no later compiler knows again.
- The buffer of the latest changes has room at each push, because the oldest is taken out first; the window takes a change only if it isn't
  zero; a vector has a place; and an eye takes a word from the bytes only if more than eight are left. In the place of what would be done
  else stands a trap.

A module that has another form is an error, so nothing is left out by chance.
"""

import re
import sys

# The head of a function of this name without its attributes, and its lines.
FUNCTION = r'^(define internal [^@\n]*@"{}(?:::<[^"\n]*)?"\([^\n]*\)) #\d+ \{{\n((?:(?!^\}}).*\n)*)'
BODIES = {
    "pocket_c::pocket_c++held++Held+Destruct::drop": "  ret void\n",
    "core::cmp::slices::groups_equal": "  %word = call i32 @rattle_equal(ptr %a0, ptr %a2, i64 %a1)\n  %same = icmp ne i32 %word, 0\n  ret i1 %same\n",
}
# What stands in functions as often as is told, and what stands in its place.
TRAPPED = r"^(then\.\d+:.*\n)(?:.+\n)+", r"\1  call void @llvm.trap()" "\n  unreachable\n"
PARTS = {
    "core::ptr::copy_drop::copy_bits": (r"^  br i1 %r\d+, label %inside\.\d+, (label %apart\.\d+)$", r"  br \1", 1),
    "circular_buffer::heap::HeapCircularBuffer::push_back": (*TRAPPED, 2),
    "robust_window::window::Window::step": (*TRAPPED, 1),
}
# What never is so as a function begins; it stands after the last of its places on the stack.
NEVER = {"robust_window::saved::are_changes": "icmp eq i32 %a2, 0", "mask_update::saved::pass_four": "icmp eq i32 %a3, 0", "bit_vectors::eye::word_after": "icmp ult i64 %a1, 9"}
BEGIN = r"(^start:\n(?:.+\n)*  %r\d+ = alloca .*\n)"
ASKED = r"""\1  %never = {}
  br i1 %never, label %trapped, label %sure

trapped:
  call void @llvm.trap()
  unreachable

sure:
"""
HEAP = r"^declare \{ i64, i64 \} @rattle_alloc\(i64 noundef, i64 noundef\) (#\d+)$"
PLACE = r"""define internal { i64, i64 } @rattle_alloc(i64 %bytes, i64 %align) alwaysinline nounwind {
  %at = call i64 @rattle_place(i64 %bytes, i64 %align)
  %told = insertvalue { i64, i64 } { i64 1, i64 undef }, i64 %at, 1
  ret { i64, i64 } %told
}
declare i64 @rattle_place(i64, i64) \1
declare i32 @rattle_equal(ptr, ptr, i64) \1
declare void @llvm.trap()"""
GIVEN_BACK = r"^declare void @rattle_dealloc\(ptr noundef\) #\d+$"
NOTHING = "define internal void @rattle_dealloc(ptr %at) alwaysinline nounwind {\n  ret void\n}"


def changed(text, form, instead, times):
    """The text with something else in the place of what has this form, which has to stand there so many times, or once at least."""
    text, found = re.subn(form, instead, text, flags=re.M)
    if found == 0 or found != (times or found):
        sys.exit(f"library/one_file/left_out.py: the module has {found} times {form}")
    return text


def of(text):
    """The text of the module without it."""
    text = re.sub(r"^declare void @llvm\.trap\(\).*\n", "", text, flags=re.M)
    text = changed(changed(text, HEAP, PLACE, 1), GIVEN_BACK, NOTHING, 1)
    for name, body in BODIES.items():
        text = changed(text, FUNCTION.format(re.escape(name)), rf"\1 alwaysinline nounwind {{\n{body}", 1)
    parts = {**PARTS, **{name: (BEGIN, ASKED.format(never), 1) for name, never in NEVER.items()}}
    for name, part in parts.items():
        text = changed(text, FUNCTION.format(re.escape(name)), lambda found: changed(found[0], *part), None)
    return text
