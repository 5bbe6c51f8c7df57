"""What the forms of a LEF have that are blocks of statements up to an END: names, statements that are read past, and the END."""
from .reader import Reader


class BlockReader(Reader):
    """Reads blocks of a LEF text into a library."""

    def __init__(self, text, library):
        super().__init__(text)
        self.library = library

    def statements(self, statement):
        """Takes the statements of a block up to the word END, each by `statement`, which is given its first word in capitals."""
        while (word := self.text.keyword()) != 'END':
            statement(word)

    def skip(self, block, word):
        """Takes the rest of a statement of a block, which is read past."""
        text, begin = self.text, self.text.at - 1
        if word != ';':
            text.skip_statement()
            text.past(f'{block} {word}', begin)

    def end(self, name):
        """Takes the name after the END of a block."""
        if self.text.take() != name:
            self.text.fault(f'END {name} was expected, not {self.text.words[self.text.at - 1]}', form='END with another name')

    def new_name(self, kind, records):
        """Takes the name of a record, which none of its kind may have, and keeps its place in the text."""
        text = self.text
        what = kind.__name__.lower()
        name = text.name(f'the name of a {what}')
        if name in records:
            text.fault(f'{what} {name} is defined twice', kind='DuplicateName', form=f'a {what} is defined twice')
        self.library.places.setdefault((kind, name), (text, text.at - 1))
        return name

    def once(self, found, word, kind='Unexpected'):
        """Notes that the statement of a word is there, and refuses a second one."""
        if word in found:
            self.text.refuse(f'{word} appears twice', kind=kind)
        found[word] = None
