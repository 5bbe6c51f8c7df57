"""The words of a LEF or DEF text, and a cursor over them."""
import re

# white space, a comment, a quoted word (1), a plain word (2)
PART = re.compile(r'[\t-\r ]+|#[^\n]*|(".*?(?<!\\)")|([^\t-\r ]+)', re.DOTALL)
MARKS = (';', '(', ')', '+', '-', '*')


class NotRead(Exception):
    """A text has a form that this program does not read: the generator writes no such form."""


def words_of(text):
    """Returns the words of a text; a plain word that ends with a semicolon is two."""
    words = []
    for quoted, plain in PART.findall(text):
        if quoted:
            words.append(quoted)
        elif len(plain) > 1 and plain.endswith(';'):
            words += [plain[:-1], ';']
        elif plain:
            words.append(plain)
    return words


class Cursor:
    """A place among the words of a text. Keywords are compared in capitals."""

    def __init__(self, words):
        self.words = words
        self.at = 0

    def is_at_end(self):
        return self.at == len(self.words)

    def next(self):
        """Returns the next word and goes past it."""
        if self.is_at_end():
            raise NotRead('the text ends too early')
        self.at += 1
        return self.words[self.at - 1]

    def peek(self):
        """Returns the next word in capitals, or the empty word at the end."""
        return '' if self.is_at_end() else self.words[self.at].upper()

    def keyword(self):
        """Returns the next word in capitals and goes past it."""
        return self.next().upper()

    def takes(self, keyword):
        """Goes past the next word if it is this keyword, and returns whether it is."""
        if self.peek() != keyword:
            return False
        self.at += 1
        return True

    def expect(self, *keywords):
        """Goes past these keywords, which have to come next."""
        for keyword in keywords:
            word = self.next()
            if word.upper() != keyword.upper():
                raise NotRead(f'{word} in place of {keyword}')

    def statement(self):
        """Returns the words up to the next semicolon and goes past it."""
        begin = self.at
        try:
            end = self.words.index(';', begin)
        except ValueError:
            raise NotRead('a statement without an end') from None
        self.at = end + 1
        return self.words[begin:end]

    def skip_past(self, *keywords):
        """Goes past the first place where these keywords follow one another; a name among them is compared as it is."""
        while not all(self.words[self.at + more].upper() == word.upper() for more, word in enumerate(keywords)):
            self.at += 1
            if self.at + len(keywords) > len(self.words):
                raise NotRead(f'there is no {" ".join(keywords)}')
        self.at += len(keywords)

    def whole_number(self):
        """Returns the next word as a whole number."""
        return whole_number(self.next())


def whole_number(word):
    """Returns a word as a whole number."""
    if not re.fullmatch(r'[+-]?[0-9]+', word):
        raise NotRead(f'{word} is not a whole number')
    return int(word)


def millionths(word):
    """Returns a length in millionths of a micron."""
    parts = re.fullmatch(r'([+-]?)([0-9]*)(?:\.([0-9]*))?', word)
    if not parts or not (parts[2] or parts[3]):
        raise NotRead(f'{word} is not a length')
    decimals = (parts[3] or '').ljust(6, '0')
    if decimals[6:].strip('0'):
        raise NotRead(f'{word} has more than six decimals')
    value = int(parts[2] or '0') * 10 ** 6 + int(decimals[:6])
    return -value if parts[1] == '-' else value
