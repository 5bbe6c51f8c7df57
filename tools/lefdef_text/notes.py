"""What a refused text seems to be that is no LEF or DEF, or the other one of the two, as lefdef's notes have it (docs/FORMATS.md, "Messages")."""
import os

from .words import shown

SIGNATURES = (
    (b'\x1f\x8b', 'the text is compressed: unpack it first, with gunzip'),
    (b'\xef\xbb\xbf', 'the text begins with a byte order mark: save it without one'),
    (b'\xff\xfe', 'the text is UTF-16: save it as ASCII, or as UTF-8 without a byte order mark'),
    (b'\xfe\xff', 'the text is UTF-16: save it as ASCII, or as UTF-8 without a byte order mark'),
    (b'\x7fELF', 'this is a program or an object file (ELF), and no text'))
FIRST_WORDS = {b'DESIGN': 'DEF', b'DIEAREA': 'DEF', b'LAYER': 'LEF', b'MACRO': 'LEF'}


def format_of(data):
    """Returns the format of a text by the first line that begins with a word of one alone, 'LEF' or 'DEF', or None if there is none."""
    words = (line.split(None, 1)[0].upper() for line in data.split(b'\n') if line.strip())
    return next((FIRST_WORDS[word] for word in words if word in FIRST_WORDS), None)


DEF_FIRST = 'the DEF is named first'


def note_of(path, needed, order=DEF_FIRST):
    """Returns what the file seems to be, where a `needed` text, 'LEF' or 'DEF', is expected, with what is said of the order of files; None
    if it may be one."""
    if not os.path.isfile(path):  # a pipe is read once
        return None
    with open(path, 'rb') as file:
        data = file.read()
    text = data.lstrip()
    if not text:
        return 'the text is empty'
    for signature, note in SIGNATURES:
        if text.startswith(signature):
            return note
    if b'\0' in data:
        return 'this is no text: it has a byte 0'
    found = format_of(data) or needed
    return None if found == needed else f'this seems to be a {found}, where a {needed} is needed: {order}'


def message_of(refused, design, libraries, order=DEF_FIRST):
    """Returns the message on a refusal, with the word at fault, and with a line `note: ..` if the text seems to be none of its format."""
    word = f', at {shown(refused.word, 40)}' if refused.word and refused.word not in refused.why else ''
    needed = 'DEF' if refused.path == design else 'LEF' if refused.path in libraries else None
    note = note_of(refused.path, needed, order) if needed else None
    return f'{refused}{word}\nnote: {note}' if note else f'{refused}{word}'
