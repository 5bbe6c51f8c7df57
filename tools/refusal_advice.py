"""Why lefdef refuses a form of LEF or DEF, in the words of these formats, and which options or which tool help."""
from lefdef_text import Layer, Macro, Rule, Site, Via, shown

NO_TOOL = 'No tool rewrites it.'
WIDE = 'lefdef --wide reads it.'
WIDE_OF_LAYERS = 'lefdef --wide reads it, of a layer.'
RECTILINEAR = 'lefdef --wide reads it, if it is rectilinear.'
STRAIGHT = 'lefdef --wide reads it, if its lines are horizontal or vertical and its width is even.'
DROPPED_MASKS = 'lefdef --wide --masks drop reads past it.'
NO_ROW = 'No tool rewrites it; a row on which no component stands can be taken out.'
NO_BLOCKAGE = 'No tool rewrites it; to judge the block without this blockage, take the entry out.'
LOOSE_BLOCKAGE = 'lefdef --wide --soft drop leaves such a placement blockage out, and with --soft hard it is one as any other.'
MORE_UNITS = 'Have the program that wrote the DEF write more units a micron, such as UNITS DISTANCE MICRONS 2000.'
RULE = 'The wires have the widths of a nondefault rule.'
MASKS = 'The masks of a layer that is made with several are not told apart.'
RECTANGLES = 'Metal is read as rectangles alone.'
PATHS = 'Metal of a special net is read as paths alone.'
PLAIN_RULE = 'lefdef --wide reads it in NETS, by the widths of the rule; its spacings are not judged.'
PLAIN_LENGTH = 'tools/plain-numbers writes it if it lies at a database unit.'
FROM_QFLOW = 'tools/from-qflow writes it whole.'
SYNTAX = 'The word is out of place, or what belongs before it is missing.'

# Each form: why it is refused, and what helps.
ADVICE = {
    'VIARULE of a via is not supported': ('The via is generated: it has numbers in place of rectangles.', WIDE),
    **{f'{word} of a generated via is not supported': ('A generated via has its numbers, and no shapes beside them.', NO_TOOL)
       for word in ('RECT', 'POLYGON', 'PATTERNNAME', 'MASK')},
    'the cuts of a via are an odd number of units wide or high': ('The middle of the cuts of a generated via is on a database unit.', MORE_UNITS),
    'a square of one unit is not supported': ('A rectangle of a special net is read as wires, whose width is even.', NO_TOOL),
    'components have the site of a row that is dropped': ('A row that is turned, or is of several rows, is read past where nothing can stand in it.',
                                                          NO_TOOL),
    'PATTERNNAME of a via is not supported': ('Its cuts are those of a pattern, which is not read.', NO_TOOL),
    'POLYGON of a via is not supported': (RECTANGLES, NO_TOOL),
    'MASK of a via is not supported': (MASKS, NO_TOOL),
    'POLYGON of a pin is not supported': (RECTANGLES, RECTILINEAR),
    'VIA of a pin is not supported': ('The metal of a pin of the block is read as rectangles alone.', WIDE),
    'MASK of a pin is not supported': (MASKS, DROPPED_MASKS),
    'MASK of tracks is not supported': (MASKS, DROPPED_MASKS),
    'SOFT of a blockage is not supported': ('A soft blockage keeps components out when a block is placed first, and not later.',
                                            LOOSE_BLOCKAGE),
    'PARTIAL of a blockage is not supported': ('A partial blockage limits how full its place is when a block is placed first, which is not judged.',
                                               LOOSE_BLOCKAGE),
    'COMPONENT of a blockage is not supported': ('The blockage goes with a component.', WIDE),
    'SLOTS of a blockage is not supported': ('The blockage keeps out slots, and no wires.', WIDE_OF_LAYERS),
    'FILLS of a blockage is not supported': ('The blockage keeps out fills, and no wires.', WIDE_OF_LAYERS),
    'EXCEPTPGNET of a blockage is not supported': ('The blockage does not keep out power and ground nets.', NO_BLOCKAGE),
    'SPACING of a blockage is not supported': ('The blockage has a spacing of its own.', NO_BLOCKAGE),
    'DESIGNRULEWIDTH of a blockage is not supported': ('The blockage has a width of its own, from which its spacing follows.', NO_BLOCKAGE),
    'MASK of a blockage is not supported': (MASKS, 'lefdef --wide --masks drop reads past it, of a layer.'),
    'POLYGON of a blockage is not supported': ('A blockage is read as rectangles alone.', RECTILINEAR),
    'MUSTJOIN is not supported': ('The entry is of pins of one component that have to be joined, and of no net with a name.', NO_TOOL),
    'NONDEFAULTRULE of a net is not supported': (RULE, PLAIN_RULE),
    'TAPERRULE of a net is not supported': (RULE, NO_TOOL),
    'TAPERRULE in wiring is not supported': (RULE, PLAIN_RULE),
    'SUBNET of a net is not supported': ('A part of the net has pins and wiring of its own.', NO_TOOL),
    'VPIN of a net is not supported': ('A virtual pin is no pin of a component or of the block.', NO_TOOL),
    'STYLE of a net is not supported': ('A style gives wires ends of another form.', NO_TOOL),
    'STYLE in wiring is not supported': ('A style gives wires ends of another form.', NO_TOOL),
    'VIRTUAL of a net is not supported': ('A virtual connection joins two points without metal.', NO_TOOL),
    'VIRTUAL in wiring is not supported': ('A virtual connection joins two points without metal.', 'lefdef --wide reads it in NETS.'),
    'MASK of a net is not supported': (MASKS, 'lefdef --wide --masks drop reads past it in SPECIALNETS.'),
    'MASK in wiring is not supported': (MASKS, DROPPED_MASKS),
    'RECT of a net is not supported': (PATHS, WIDE),
    'POLYGON of a net is not supported': (PATHS, RECTILINEAR),
    'VIA of a net is not supported': (PATHS, WIDE),
    'DO in wiring is not supported': ('A via is repeated in columns and rows.', 'lefdef --wide reads it in SPECIALNETS.'),
    'the orientation of a via in wiring is not supported': ('The via is turned or mirrored.', 'lefdef --wide reads one orientation behind a via.'),
    'a die area that is no rectangle is not supported': ('The die is read as one rectangle.', NO_TOOL),
    'a die area of other than two or four points is not supported': ('The die is read as one rectangle.', NO_TOOL),
    'a row is turned': ('A row is N, S, FN or FS.', NO_ROW),
    'a row is one site high': ('DO n BY m with another m than 1 is a row in columns or several rows.', NO_ROW),
    'the step of a row is not the width of its site': ('Sites of a row abut.', NO_ROW),
    'the direction DIAG45 is not supported': ('Wires are horizontal or vertical.', NO_TOOL),
    'the direction DIAG135 is not supported': ('Wires are horizontal or vertical.', NO_TOOL),
    'POLYGON in a geometry is not supported': (RECTANGLES, RECTILINEAR),
    'PATH in a geometry is not supported': (RECTANGLES, STRAIGHT),
    'PATH with a slanted line is not supported': (RECTANGLES, NO_TOOL),
    'PATH of an odd width is not supported': ('The middle line of a path is on a millionth of a micron, so the width is even.', NO_TOOL),
    'PATH on a cut layer without a WIDTH is not supported': ('No wire runs on a layer of cuts, so it has no width for a path.', NO_TOOL),
    'PATH behind a WIDTH that is no length above 0 is not supported': ('A WIDTH holds up to the next WIDTH or LAYER.', NO_TOOL),
    'PATH beyond 2,000 metres is not supported': ('The path reaches half its width beyond its points.', NO_TOOL),
    'PATH MASK is not supported': (MASKS, DROPPED_MASKS),
    'PATH ITERATE is not supported': ('A path is repeated in columns and rows.', NO_TOOL),
    'VIA in a geometry is not supported': (RECTANGLES, WIDE),
    'RECT MASK is not supported': (MASKS, DROPPED_MASKS),
    'RECT ITERATE is not supported': ('A rectangle is repeated in columns and rows.', WIDE),
    'POLYGON MASK is not supported': (MASKS, DROPPED_MASKS),
    'VIA MASK is not supported': (MASKS, DROPPED_MASKS),
    'POLYGON with a slanted side is not supported': (RECTANGLES, NO_TOOL),
    'EXCEPTPGNET is not supported': ('The obstruction does not keep out power and ground nets.', 'lefdef --wide reads it as one that does.'),
    'SITE appears twice': ('A macro has one site.', NO_TOOL),
    'SITE of a macro with more than a name': ('A macro has one site, and no pattern of sites.', NO_TOOL),
    'a number with zeros after a point': ('A number of a DEF is a whole number of database units.', FROM_QFLOW),
    'a number with digits after a point': ('A number of a DEF is a whole number of database units.', MORE_UNITS),
    'a number with an exponent': ('A number of a DEF is a sign and digits.', 'tools/plain-numbers writes it, if it lies at a whole number.'),
    'a length with an exponent': ('A length of a LEF is a sign, digits and maybe a point.', PLAIN_LENGTH),
    'a length of more than six decimals': ('It is finer than a millionth of a micron.', PLAIN_LENGTH),
    'NotOnUnit': ('No length is rounded.', MORE_UNITS),
    'OddWidth': ('The middle line of a wire is on a database unit, so the width is even.', MORE_UNITS),
    'the width of a wire is odd': ('The middle line of a wire is on a database unit, so the width is even.', MORE_UNITS),
    'the width of a rule is odd where a wire has it': ('The middle line of a wire is on a database unit, so the width is even.', MORE_UNITS),
    'a wire has the width 0': ('A path of the width 0 has vias alone.', NO_TOOL),
    'a wire is neither horizontal nor vertical': ('Wires at an angle are not read.', NO_TOOL),
    'a via does not join two routing layers': ('A wire names it.', NO_TOOL),
    'a via does not begin on the layer of its path': ('The path would have to change its layer without metal.', NO_TOOL),
    'a terminal is in two nets': ('A pin is in one net.', NO_TOOL),
    'a net appears twice': ('A net has one entry in a section.', 'tools/from-qflow joins the second entry to the first if it has nothing but wiring.'),
    'a layer is defined twice': ('', 'Leave one of the two out.'),
    'a macro is defined twice': ('', 'Leave one of the two out.'),
    'a via is defined twice': ('', 'Leave one of the two out.'),
    'a site is defined twice': ('', 'Leave one of the two out.'),
    'a rule is defined twice': ('', 'Leave one of the two out.'),
    'a layer appears twice in a rule': ('A rule tells the width of a layer once.', 'Leave one of the two out.'),
    'there are more than 200,000 entries of COMPONENTS': ('', 'tools/drop-fillers takes fillers out.'),
    'the text ends too early': ('An END, a semicolon or a whole section is missing behind its last word.', ''),
    'a word is no form of a DEF': ('lefdef reads no statement and no section with this word.', NO_TOOL),
}
OTHER_BLOCKAGE = ('No blockage of LEF/DEF 5.8 has this word.', NO_BLOCKAGE)
KINDS_OF_RECORDS = {'layer': Layer, 'site': Site, 'macro': Macro, 'via': Via, 'rule': Rule}


class Advice:
    """What is said of the faults of texts, given the library and the block as far as they were read."""

    def __init__(self, faults, library, design):
        self.texts, self.library = faults.texts, library
        self.why_not_good = {**library.why_not_good, **design.why_not_good}

    def why(self, refused):
        """Returns what is refused at a place, on one line."""
        why = refused.form if refused.kind == 'Unsupported' else refused.why
        if refused.kind == 'BadVia' and refused.word in self.why_not_good:
            why = f'{why}: {self.why_not_good[refused.word]}'
        elif refused.kind in ('Unexpected', 'EmptyRect') and refused.word not in why:
            why = f'{why}, at {refused.word[:40]}'
        return shown(' '.join(why.split()))

    def sentences(self, refused):
        """Returns the sentences on the form of a fault, each after a blank."""
        reason, helps = ADVICE.get(refused.form, ('', ''))
        if refused.kind == 'Unsupported' and not helps:
            reason, helps = OTHER_BLOCKAGE
        elif refused.kind == 'UnknownName':
            reason = self.where_defined(refused)
        elif refused.kind == 'DuplicateName' and not reason:
            reason = self.first_definition(refused)
        elif self.is_before_figure(refused):
            reason, helps = 'A status in front of a figure of a special net is not read.', WIDE
        elif refused.form.endswith('was expected'):
            reason = SYNTAX
        if refused.kind == 'BadVia' and self.why_not_good.get(refused.word, '').startswith('it has the statement '):
            helps = DROPPED_MASKS if self.why_not_good[refused.word].endswith(' MASK') else WIDE
        return ''.join(f' {sentence}' for sentence in (reason, helps) if sentence)

    def is_before_figure(self, refused):
        """Returns whether a `+` behind a status, in place of a layer, is that of a figure of a special net, or of its shape."""
        words = self.texts[refused.path].words
        return (refused.form == 'the name of a layer was expected' and refused.word == '+'
                and words[refused.at + 1].upper() in ('SHAPE', 'RECT', 'POLYGON', 'VIA'))

    def place_of(self, kind, name):
        """Returns the place at which a layer, site, macro or via of the LEFs is defined, or None."""
        text, at = self.library.places.get((KINDS_OF_RECORDS.get(kind), name), (None, None))
        return text and f'{text.path}:{text.line(at)}'

    def where_defined(self, refused):
        """Returns where a name is defined that was not known where it was used."""
        kind = refused.form.rpartition(' ')[2]
        place = self.place_of(kind, refused.word)
        dropped = self.library.dropped.get(refused.word) if kind == 'macro' else None
        if dropped:
            return f'The macro is in {dropped.path}, and is dropped: in line {dropped.line}, {shown(dropped.why)}.'
        if place:
            return f'It is defined behind this place, in {place}: a name is defined before it is used, so give that LEF first.'
        if refused.form == 'a macro has no such pin':
            return 'Check its spelling and its capitals, and whether the LEF is the one of these cells.'
        if kind in ('layer', 'site', 'macro'):
            return 'None of the LEFs that are given defines it: check its spelling and its capitals, and which LEFs are given.'
        return 'Nothing before this place defines it: check its spelling and its capitals.'

    def first_definition(self, refused):
        kind = refused.why.partition(' ')[0]
        place = self.place_of(kind, refused.word)
        return f'The first one is in {place}.' if place and place != f'{refused.path}:{refused.line}' else ''
