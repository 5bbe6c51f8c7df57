#!/usr/bin/env python3
"""Checks a block, or asks another command of lefdef, by the library liblefdef.so, which has to be in the folder that LEFDEF_LIBRARY
names or else in the current one.

    check.py [--wide] COMMAND DEF LEF...

It answers as the program `lefdef` does, but for its messages; of the options it takes --wide. The exit statuses are those of lefdef, among
them 4 where memory runs out, and 5 where a file cannot be read or the answer cannot be written.
"""
import ctypes
import mmap
import os
import sys

COMMANDS = ("check", "place-check", "measure", "legalise", "route", "flow", "finish", "print")
# The flag of the wide profile.
WIDE = 256
MEMORY = 4
UNIT = 16
# No more than this is lent.
GREATEST = 8 << 30


class Memory(ctypes.Structure):
    """struct lefdef_memory."""
    _fields_ = [("bytes", ctypes.c_void_p), ("size", ctypes.c_size_t)]


class Text(ctypes.Structure):
    """struct lefdef_text. Bytes of Python have a place even where there are none, so the pointer is never null."""
    _fields_ = [("bytes", ctypes.c_char_p), ("length", ctypes.c_size_t)]


def load(folder):
    """Returns the function lefdef_run of the library in this folder."""
    run = ctypes.CDLL(os.path.join(folder, "liblefdef.so")).lefdef_run
    run.restype = ctypes.c_uint32
    run.argtypes = [Memory, ctypes.c_uint32, ctypes.POINTER(Text), ctypes.c_size_t, ctypes.c_char_p, ctypes.c_size_t,
                    ctypes.c_void_p, ctypes.c_size_t, ctypes.POINTER(ctypes.c_size_t)]
    return run


def ask(run, size, number, lefs, definition):
    """Returns the status and the answer of one call with this many bytes of memory, of two if the answer is longer than was guessed.

    Memory that mmap gives is at a page, and takes room only as far as it is used."""
    region = mmap.mmap(-1, size)
    memory = Memory(ctypes.addressof(ctypes.c_char.from_buffer(region)), size - size % UNIT)
    texts = (Text * max(len(lefs), 1))(*(Text(lef, len(lef)) for lef in lefs))
    length = ctypes.c_size_t(2 * len(definition) + (1 << 12))
    room = 0
    while length.value > room:
        room = length.value
        out = ctypes.create_string_buffer(room)
        status = run(memory, number, texts, len(lefs), definition, len(definition), out, room, ctypes.byref(length))
    return status, ctypes.string_at(out, length.value)


def answer(run, number, lefs, definition):
    """Returns the status and the answer of a command, by its number with its flags, to the bytes of the LEFs and of the DEF."""
    size = 20 * sum(map(len, [definition, *lefs])) + (1 << 20)
    status, text = ask(run, size, number, lefs, definition)
    while status == MEMORY and size <= GREATEST // 2:
        size *= 2
        status, text = ask(run, size, number, lefs, definition)
    return status, text


def main(words):
    """Answers a command line, and returns the exit status."""
    flags = WIDE if words[:1] == ["--wide"] else 0
    words = words[1:] if flags else words
    if len(words) < 3 or words[0] not in COMMANDS:
        print("usage: check.py [--wide] COMMAND DEF LEF...", file=sys.stderr)
        return 64
    texts = []
    for path in words[1:]:
        try:
            with open(path, "rb") as file:
                texts.append(file.read())
        except OSError as error:
            print(f"cannot read {path}: {error.strerror}", file=sys.stderr)
            return 5
    number = COMMANDS.index(words[0]) + flags
    status, text = answer(load(os.environ.get("LEFDEF_LIBRARY", ".")), number, texts[1:], texts[0])
    try:
        sys.stdout.buffer.write(text)
        sys.stdout.buffer.flush()
    except OSError as error:
        print(f"cannot write: {error.strerror}", file=sys.stderr)
        return 5
    return status


if __name__ == "__main__":
    sys.exit(main(sys.argv[1:]))
