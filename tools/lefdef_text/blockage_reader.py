"""Reading the blockages of a DEF text (docs/FORMATS.md, "Blockages")."""
from .design import Blockage
from .entries import EntryReader


class BlockageReader(EntryReader):
    """Reads entries of BLOCKAGES."""

    def blockage(self):
        """Takes an entry of BLOCKAGES, and keeps it unless its layer has no metal, or a clause drops it."""
        text, layer, rects, begin = self.text, None, [], self.text.at - 1
        kept = True
        if (word := text.keyword()) == 'LAYER':
            layer = self.layer()
        elif word != 'PLACEMENT':
            text.unexpected('LAYER or PLACEMENT')
        while text.peek() == '+':
            if self.blockage_clause(layer) is False:
                kept = False
        while not rects or text.peek() != ';':
            if text.peek() == 'POLYGON':
                rects += self.blockage_polygon()
                continue
            text.expect('RECT')
            rects.append(text.corners(self.point))
        text.expect(';')
        if not kept:
            text.past('BLOCKAGES, dropped', begin)
        elif layer is None or layer.has_metal():
            self.design.blockages.append(Blockage(layer and layer.name, rects))
        else:
            text.past('BLOCKAGES LAYER without metal', begin)

    def blockage_polygon(self):
        """Takes a polygon of a blockage, which comes next, and returns its rectangles; the narrow profile refuses it."""
        text, begin = self.text, self.text.at
        if not self.profile.is_wide:
            text.refuse('POLYGON of a blockage is not supported', begin, 'Unsupported')
        text.take()
        return self.polygon(begin)

    def blockage_clause(self, layer):
        """Takes a clause of a blockage of this layer, and returns False if the blockage is dropped for it."""
        text, begin = self.text, self.text.at
        text.expect('+')
        if (word := text.keyword()) != 'PUSHDOWN':
            if self.profile.is_wide and word in self.wide_clauses(layer):
                return self.wide_blockage_clause(word, begin)
            text.refuse(f'{text.words[text.at - 1]} of a blockage is not supported', kind='Unsupported', form=f'{word} of a blockage is not supported')
        text.past('BLOCKAGES + PUSHDOWN', begin)
        return True

    def wide_clauses(self, layer):
        """Returns the clauses that a blockage of this layer may have in the wide profile besides PUSHDOWN."""
        if layer is None:
            return ('COMPONENT', 'SOFT', 'PARTIAL') if self.profile.soft else ('COMPONENT',)
        return ('COMPONENT', 'SLOTS', 'FILLS', 'MASK') if self.profile.drops_masks else ('COMPONENT', 'SLOTS', 'FILLS')

    def wide_blockage_clause(self, word, begin):
        """Takes the rest of such a clause, and returns whether the blockage is kept."""
        text = self.text
        if word == 'COMPONENT':
            text.name('the name of a component')
        elif word == 'PARTIAL':
            text.word('a density')
        elif word == 'MASK':
            text.whole()
        if word in ('SLOTS', 'FILLS') or word in ('SOFT', 'PARTIAL') and self.profile.soft == 'drop':
            return False
        text.past(f'BLOCKAGES + {word}', begin)
        return True
