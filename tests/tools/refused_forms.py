"""A small technology and a small block, and forms that lefdef refuses in their place, each with the line on it that tools/refused prints."""

TECHNOLOGY = '''LAYER well TYPE MASTERSLICE ; END well
LAYER m1
  TYPE ROUTING ;
  DIRECTION HORIZONTAL ;
  WIDTH 0.1 ;
  SPACING 0.1 ;
END m1
LAYER v1 TYPE CUT ; SPACING 0.1 ; END v1
LAYER m2 TYPE ROUTING ; DIRECTION VERTICAL ; WIDTH 0.1 ; SPACING 0.1 ; END m2
LAYER v2 TYPE CUT ; END v2
LAYER m3 TYPE ROUTING ; DIRECTION HORIZONTAL ; WIDTH 0.1 ; END m3
VIA V12 DEFAULT
  LAYER m1 ; RECT -0.05 -0.05 0.05 0.05 ;
  LAYER v1 ; RECT -0.05 -0.05 0.05 0.05 ;
  LAYER m2 ; RECT -0.05 -0.05 0.05 0.05 ;
END V12
SITE core SIZE 0.2 BY 2.0 ; END core
MACRO INV
  SIZE 0.4 BY 2.0 ;
  ORIGIN 0 0 ;
  SITE core ;
  PIN A
    USE SIGNAL ;
    PORT
      LAYER m1 ;
      RECT 0.1 0.1 0.2 0.2 ;
    END
  END A
  PIN Y
    PORT
      LAYER m1 ;
      RECT 0.3 0.1 0.35 0.2 ;
    END
  END Y
  OBS
    LAYER m1 ;
    RECT 0.0 1.0 0.4 1.1 ;
  END
END INV
END LIBRARY
'''
BLOCK = '''VERSION 5.8 ;
DESIGN d ;
UNITS DISTANCE MICRONS 1000 ;
DIEAREA ( 0 0 ) ( 1600 2000 ) ;
ROW r core 0 0 N DO 8 BY 1 STEP 200 0 ;
TRACKS X 100 DO 8 STEP 200 LAYER m2 ;
VIAS 1 ;
- big + RECT m1 ( -50 -50 ) ( 50 50 ) + RECT v1 ( -50 -50 ) ( 50 50 ) + RECT m2 ( -50 -50 ) ( 50 50 ) ;
END VIAS
COMPONENTS 2 ;
- u1 INV + PLACED ( 0 0 ) N ;
- u2 INV + PLACED ( 400 0 ) N ;
END COMPONENTS
PINS 1 ;
- p + NET n1 + LAYER m1 ( 0 0 ) ( 50 50 ) + PLACED ( 0 500 ) N ;
END PINS
BLOCKAGES 2 ;
- PLACEMENT RECT ( 0 0 ) ( 9 9 ) ;
- LAYER m2 RECT ( 0 0 ) ( 9 9 ) ;
END BLOCKAGES
SPECIALNETS 1 ;
- s
+ ROUTED m1 100 ( 0 1500 ) ( 800 1500 ) ;
END SPECIALNETS
NETS 2 ;
- n1 ( u1 A )
+ ROUTED m1 ( 100 150 ) ( 300 150 ) ;
- n2 ( u1 Y ) ;
END NETS
END DESIGN
'''
NO_TOOL = 'No tool rewrites it.'
WIDE = 'lefdef --wide reads it.'
RECTILINEAR = 'lefdef --wide reads it, if it is rectilinear.'
STRAIGHT = 'lefdef --wide reads it, if its lines are horizontal or vertical and its width is even.'
WIDE_OF_LAYERS = 'lefdef --wide reads it, of a layer.'
DROPPED_MASKS = 'lefdef --wide --masks drop reads past it.'
LOOSE = 'lefdef --wide --soft drop leaves such a placement blockage out, and with --soft hard it is one as any other.'
NO_BLOCKAGE = 'No tool rewrites it; to judge the block without this blockage, take the entry out.'
NO_ROW = 'No tool rewrites it; a row on which no component stands can be taken out.'
MASKS = 'The masks of a layer that is made with several are not told apart.'
RULE = 'The wires have the widths of a nondefault rule.'
RECTANGLES = 'Metal is read as rectangles alone.'
PATHS = 'Metal of a special net is read as paths alone.'
PLAIN_RULE = 'lefdef --wide reads it in NETS, by the widths of the rule; its spacings are not judged.'
PLAIN_LENGTH = 'tools/plain-numbers writes it if it lies at a database unit.'
UNITS = 'Have the program that wrote the DEF write more units a micron, such as UNITS DISTANCE MICRONS 2000.'
NO_LEF = 'None of the LEFs that are given defines it: check its spelling and its capitals, and which LEFs are given.'
OUT_OF_PLACE = 'The word is out of place, or what belongs before it is missing.'
DIE, ROW, TRACKS, VIA = 'DIEAREA ( 0 0 ) ( 1600 2000 )', 'r core 0 0 N DO 8 BY 1 STEP 200 0', 'STEP 200 LAYER m2', '- big + RECT m1'
PLACEMENT, BLOCKED, PORT = '- PLACEMENT RECT', '- LAYER m2 RECT', '+ LAYER m1 ( 0 0 )'
STRAP, WIRE, NET = '+ ROUTED m1 100 ( 0 1500 ) ( 800 1500 )', 'm1 ( 100 150 ) ( 300 150 )', '- n2 ( u1 Y ) ;'
PIN_RECT, OBS_RECT = 'RECT 0.1 0.1 0.2 0.2 ;', 'RECT 0.0 1.0 0.4 1.1 ;'

# Of the block: what is replaced, by what, the line, the kind, and the sentences.
DEF_FORMS = (
    (DIE, 'DIEAREA ( 0 0 ) ( 0 9 ) ( 5 9 ) ( 5 5 ) ( 9 5 ) ( 9 0 )', 4, 'Unsupported',
     f'a die area of other than two or four points is not supported. The die is read as one rectangle. {NO_TOOL}'),
    (DIE, 'DIEAREA ( 0 0 ) ( 9 9 ) ( 0 9 ) ( 9 0 )', 4, 'Unsupported', f'a die area that is no rectangle is not supported. The die is read as one rectangle. {NO_TOOL}'),
    (DIE, 'DIEAREA ( 0 0 ) ( 1600 0 )', 4, 'EmptyRect', 'a rectangle has no area, at (.'),
    (ROW, 'r core 0 0 W DO 8 BY 1', 5, 'BadRow', f'a row of orientation W is not supported. A row is N, S, FN or FS. {NO_ROW}'),
    (ROW, 'r core 0 0 N DO 8 BY 2 STEP 200 0', 5, 'BadRow', f'a row is one site high. DO n BY m with another m than 1 is a row in columns or several rows. {NO_ROW}'),
    (ROW, 'r core 0 0 N DO 8 BY 1 STEP 400 0', 5, 'BadRow', f'the step of a row is the width of its site, 200. Sites of a row abut. {NO_ROW}'),
    (ROW, 'r core 0 0 N DO 0 BY 1', 5, 'TooLarge', 'a row has no site.'),
    (ROW, 'r core 0 0 N DO 2000000000 BY 1', 5, 'TooLarge', 'the row ends beyond 2000000000.'),
    (ROW, 'r cores 0 0 N DO 8 BY 1', 5, 'UnknownName', f'there is no site cores. {NO_LEF}'),
    (TRACKS, 'STEP 200 MASK 1 LAYER m2', 6, 'Unsupported', f'MASK of tracks is not supported. {MASKS} {DROPPED_MASKS}'),
    (TRACKS, 'STEP 0 LAYER m2', 6, 'TooLarge', 'the step of tracks is too small.'),
    (TRACKS, 'STEP 2000000001 LAYER m2', 6, 'TooLarge', '2000000001 is beyond 2000000000.'),
    (TRACKS, 'STEP 200.0 LAYER m2', 6, 'BadNumber',
     'a whole number was expected, not 200.0. A number of a DEF is a whole number of database units. tools/from-qflow writes it whole.'),
    (TRACKS, 'STEP 200.5 LAYER m2', 6, 'BadNumber', f'a whole number was expected, not 200.5. A number of a DEF is a whole number of database units. {UNITS}'),
    (TRACKS, 'STEP 2e2 LAYER m2', 6, 'BadNumber',
     'a whole number was expected, not 2e2. A number of a DEF is a sign and digits. tools/plain-numbers writes it, if it lies at a whole number.'),
    ('VIAS 1 ;', 'COMPONENTMASKSHIFT m1 ;\nVIAS 1 ;', 7, 'Unexpected',
     f'COMPONENTMASKSHIFT is no form of a DEF. lefdef reads no statement and no section with this word. {NO_TOOL}'),
    (VIA, '- big + VIARULE r + CUTSIZE 20 20 + RECT m1', 8, 'Unsupported',
     f'VIARULE of a via is not supported. The via is generated: it has numbers in place of rectangles. {WIDE}'),
    (VIA, '- big + PATTERNNAME a + RECT m1', 8, 'Unsupported', f'PATTERNNAME of a via is not supported. Its cuts are those of a pattern, which is not read. {NO_TOOL}'),
    (VIA, '- big + POLYGON m1 ( 0 0 ) ( 9 0 ) ( 9 9 ) + RECT m1', 8, 'Unsupported', f'POLYGON of a via is not supported. {RECTANGLES} {NO_TOOL}'),
    (VIA, '- big + RECT m1 + MASK 1', 8, 'Unsupported', f'MASK of a via is not supported. {MASKS} {NO_TOOL}'),
    (VIA, '- big + MASK 1 + RECT m1', 8, 'Unsupported', f'MASK of a via is not supported. {MASKS} {NO_TOOL}'),
    ('- big +', '- V12 +', 8, 'DuplicateName', 'via V12 appears twice. The first one is in tech.lef:12.'),
    ('- u2 INV', '- u1 INV', 12, 'DuplicateName', 'component u1 appears twice.'),
    ('- u2 INV', '- u2 BUF', 12, 'UnknownName', f'there is no macro BUF. {NO_LEF}'),
    ('PLACED ( 400 0 )', 'PLACED ( 400 zero )', 12, 'BadNumber', 'a whole number was expected, not zero. ' + OUT_OF_PLACE),
    (PORT, '+ LAYER m1 MASK 1 ( 0 0 )', 15, 'Unsupported', f'MASK of a pin is not supported. {MASKS} {DROPPED_MASKS}'),
    (PORT, '+ POLYGON m1 ( 0 0 ) ( 9 0 ) ( 9 9 ) ' + PORT, 15, 'Unsupported',
     f'POLYGON of a pin is not supported. {RECTANGLES} {RECTILINEAR}'),
    (PORT, '+ VIA V12 ( 0 0 ) ' + PORT, 15, 'Unsupported',
     f'VIA of a pin is not supported. The metal of a pin of the block is read as rectangles alone. {WIDE}'),
    (PORT, '+ LAYER m9 ( 0 0 )', 15, 'UnknownName', f'there is no layer m9. {NO_LEF}'),
    (PLACEMENT, '- PLACEMENT + SOFT RECT', 18, 'Unsupported',
     f'SOFT of a blockage is not supported. A soft blockage keeps components out when a block is placed first, and not later. {LOOSE}'),
    (PLACEMENT, '- PLACEMENT + PARTIAL 0.5 RECT', 18, 'Unsupported',
     f'PARTIAL of a blockage is not supported. A partial blockage limits how full its place is when a block is placed first, which is not judged. {LOOSE}'),
    (PLACEMENT, '- PLACEMENT + COMPONENT u1 RECT', 18, 'Unsupported', f'COMPONENT of a blockage is not supported. The blockage goes with a component. {WIDE}'),
    (BLOCKED, '- LAYER m2 + slots RECT', 19, 'Unsupported', f'SLOTS of a blockage is not supported. The blockage keeps out slots, and no wires. {WIDE_OF_LAYERS}'),
    (BLOCKED, '- LAYER m2 + FILLS RECT', 19, 'Unsupported', f'FILLS of a blockage is not supported. The blockage keeps out fills, and no wires. {WIDE_OF_LAYERS}'),
    (BLOCKED, '- LAYER m2 + EXCEPTPGNET RECT', 19, 'Unsupported',
     f'EXCEPTPGNET of a blockage is not supported. The blockage does not keep out power and ground nets. {NO_BLOCKAGE}'),
    (BLOCKED, '- LAYER m2 + SPACING 5 RECT', 19, 'Unsupported', f'SPACING of a blockage is not supported. The blockage has a spacing of its own. {NO_BLOCKAGE}'),
    (BLOCKED, '- LAYER m2 + DESIGNRULEWIDTH 5 RECT', 19, 'Unsupported',
     f'DESIGNRULEWIDTH of a blockage is not supported. The blockage has a width of its own, from which its spacing follows. {NO_BLOCKAGE}'),
    (BLOCKED, '- LAYER m2 + MASK 1 RECT', 19, 'Unsupported', f'MASK of a blockage is not supported. {MASKS} lefdef --wide --masks drop reads past it, of a layer.'),
    (BLOCKED, '- LAYER m2 + FOO RECT', 19, 'Unsupported', f'FOO of a blockage is not supported. No blockage of LEF/DEF 5.8 has this word. {NO_BLOCKAGE}'),
    (BLOCKED, '- LAYER m2 POLYGON ( 1 1 ) RECT', 19, 'Unsupported',
     f'POLYGON of a blockage is not supported. A blockage is read as rectangles alone. {RECTILINEAR}'),
    (STRAP, '+ RECT m1 ( 0 0 ) ( 9 9 ) ' + STRAP, 23, 'Unsupported', f'RECT of a net is not supported. {PATHS} {WIDE}'),
    (STRAP, '+ POLYGON m1 ( 0 0 ) ( 9 0 ) ( 9 9 ) ' + STRAP, 23, 'Unsupported',
     f'POLYGON of a net is not supported. {PATHS} {RECTILINEAR}'),
    (STRAP, '+ VIA V12 ( 0 0 ) ' + STRAP, 23, 'Unsupported', f'VIA of a net is not supported. {PATHS} {WIDE}'),
    (STRAP, STRAP.replace('100', '101'), 23, 'OddWidth', f'the width 101 is odd. The middle line of a wire is on a database unit, so the width is even. {UNITS}'),
    (STRAP, STRAP.replace('100', '-2'), 23, 'TooLarge', 'a width is negative.'),
    (STRAP, STRAP.replace('100', '0'), 23, 'EmptyRect', f'a wire has the width 0, at (. A path of the width 0 has vias alone. {NO_TOOL}'),
    (STRAP, STRAP.replace('100', '100 + STYLE 1 + SHAPE RING'), 23, 'Unsupported', f'STYLE in wiring is not supported. A style gives wires ends of another form. {NO_TOOL}'),
    (STRAP, STRAP + ' V12 DO 2 BY 2 STEP 100 100', 23, 'Unsupported',
     'DO in wiring is not supported. A via is repeated in columns and rows. lefdef --wide reads it in SPECIALNETS.'),
    (WIRE, 'm1 TAPERRULE wide ( 100 150 ) ( 300 150 )', 27, 'Unsupported', f'TAPERRULE in wiring is not supported. {RULE} {PLAIN_RULE}'),
    (WIRE, 'm1 ( 100 150 ) MASK 1 ( 300 150 )', 27, 'Unsupported', f'MASK in wiring is not supported. {MASKS} {DROPPED_MASKS}'),
    (WIRE, 'm1 ( 100 150 ) VIRTUAL ( 300 250 )', 27, 'Unsupported', 'VIRTUAL in wiring is not supported. A virtual connection joins two points without metal. lefdef --wide reads it in NETS.'),
    (WIRE, WIRE + ' V12 FN', 27, 'Unsupported', 'the orientation of a via in wiring is not supported. The via is turned or mirrored. lefdef --wide reads one orientation behind a via.'),
    (WIRE, 'm1 ( 100 150 ) ( 300 250 )', 27, 'Diagonal', f'a wire is neither horizontal nor vertical. Wires at an angle are not read. {NO_TOOL}'),
    (WIRE, 'm1 ( 100 150 ) ( 300 150 -1 )', 27, 'TooLarge', 'an extension is negative.'),
    (WIRE, 'm1 ( 100 150 ) RECT ( 0 0 0 9 )', 27, 'EmptyRect', 'a rectangle has no area, at (.'),
    (WIRE, 'well ( 100 150 ) ( 300 150 )', 27, 'Unexpected', 'well is no routing layer.'),
    (WIRE, 'm9 ( 100 150 ) V12 ( 300 150 )', 27, 'UnknownName', f'there is no layer m9. {NO_LEF}'),
    (WIRE, WIRE + ' V99', 27, 'UnknownName', 'there is no via V99. Nothing before this place defines it: check its spelling and its capitals.'),
    (WIRE, WIRE.replace('m1', 'm3') + ' V12', 27, 'ViaLayer',
     f'via V12 does not begin on m3. The path would have to change its layer without metal. {NO_TOOL}'),
    ('- n1 ( u1 A )', '- n1 ( u9 A )', 26, 'UnknownName', 'there is no component u9. Nothing before this place defines it: check its spelling and its capitals.'),
    ('- n1 ( u1 A )', '- n1 ( u1 B )', 26, 'UnknownName',
     'macro INV has no pin B. Check its spelling and its capitals, and whether the LEF is the one of these cells.'),
    (NET, '- MUSTJOIN ( u1 Y ) ;', 28, 'Unsupported',
     f'MUSTJOIN is not supported. The entry is of pins of one component that have to be joined, and of no net with a name. {NO_TOOL}'),
    (NET, '- n2 ( u1 A ) ;', 28, 'PinTwice', f'u1 A is in two nets, n1 and n2. A pin is in one net. {NO_TOOL}'),
    (NET, '- n1 ( u1 Y ) ;', 28, 'DuplicateName',
     'net n1 appears twice. A net has one entry in a section. tools/from-qflow joins the second entry to the first if it has nothing but wiring.'),
    (NET, '- n2 ( u1 Y ) + NONDEFAULTRULE wide ;', 28, 'Unsupported', f'NONDEFAULTRULE of a net is not supported. {RULE} {PLAIN_RULE}'),
    (NET, '- n2 ( u1 Y ) + TAPERRULE wide ;', 28, 'Unsupported', f'TAPERRULE of a net is not supported. {RULE} {NO_TOOL}'),
    (NET, '- n2 ( u1 Y ) + SUBNET s ( u1 Y ) ROUTED m1 ( 0 0 ) ;', 28, 'Unsupported', f'SUBNET of a net is not supported. A part of the net has pins and wiring of its own. {NO_TOOL}'),
    (NET, '- n2 ( u1 Y ) + VPIN v ( 0 0 ) ( 1 1 ) ;', 28, 'Unsupported', f'VPIN of a net is not supported. A virtual pin is no pin of a component or of the block. {NO_TOOL}'),
    (NET, '- n2 ( u1 Y ) + STYLE 1 ;', 28, 'Unsupported', f'STYLE of a net is not supported. A style gives wires ends of another form. {NO_TOOL}'),
    (NET, '- n2 ( u1 Y ) + MASK 1 ;', 28, 'Unsupported', f'MASK of a net is not supported. {MASKS} lefdef --wide --masks drop reads past it in SPECIALNETS.'),
    (NET, '- n2 ( u1 Y ) + VIRTUAL ;', 28, 'Unsupported', f'VIRTUAL of a net is not supported. A virtual connection joins two points without metal. {NO_TOOL}'),
    ('UNITS DISTANCE MICRONS 1000 ;', '', 30, 'UnexpectedEnd', 'UNITS DISTANCE MICRONS is missing.'),
    ('UNITS DISTANCE MICRONS 1000', 'UNITS DISTANCE MICRONS 1000.0', 3, 'BadNumber',
     'a whole number was expected, not 1000.0. A number of a DEF is a whole number of database units. tools/from-qflow writes it whole.'),
    ('UNITS DISTANCE MICRONS 1000', 'UNITS DISTANCE MICRONS 20001', 3, 'TooLarge', 'the units a micron are 1 to 20000.'),
    ('DESIGN d ;', '', 30, 'Unexpected', 'DESIGN is missing, at END.'),
    ('END NETS\nEND DESIGN\n', '', 28, 'UnexpectedEnd', 'the text ends too early. An END, a semicolon or a whole section is missing behind its last word.'),
    ('END NETS\n', '', 29, 'Unexpected', 'NETS was expected, not DESIGN.'),
    ('END VIAS', 'END VIA', 9, 'Unexpected', 'VIAS was expected, not VIA.'),
    ('NETS 2 ;', 'NETS 2 ; END NETS NETS 2 ;', 25, 'Unexpected', 'NETS appears twice.'),
)
# The same of the technology and cells.
LEF_FORMS = (
    ('DIRECTION HORIZONTAL ;\n', 'DIRECTION DIAG45 ;\n', 4, 'Unsupported', f'the direction DIAG45 is not supported. Wires are horizontal or vertical. {NO_TOOL}'),
    ('DIRECTION HORIZONTAL ;\n', 'DIRECTION DIAG135 ;\n', 4, 'Unsupported', f'the direction DIAG135 is not supported. Wires are horizontal or vertical. {NO_TOOL}'),
    ('  WIDTH 0.1 ;\n', '', 6, 'Unexpected', 'routing layer m1 needs a DIRECTION and a WIDTH, at END.'),
    ('  WIDTH 0.1 ;\n', '  WIDTH 0.1 ;\n  TYPE ROUTING ;\n', 6, 'Unexpected', 'TYPE appears twice.'),
    ('  WIDTH 0.1 ;\n', '  WIDTH 0 ;\n', 5, 'TooLarge', 'the width is too small.'),
    ('  WIDTH 0.1 ;\n', '  WIDTH wide ;\n', 5, 'BadNumber', 'a length of at most six decimals was expected, not wide. ' + OUT_OF_PLACE),
    ('  WIDTH 0.1 ;\n', '  WIDTH 0.1015 ;\n', 5, 'NotOnUnit',
     f'a length of m1 is no whole number of database units: 0.1015 microns at 1000 units a micron. No length is rounded. {UNITS}'),
    ('  WIDTH 0.1 ;\n', '  OFFSET 0.101 ;\n  WIDTH 0.101 ;\n', 6, 'OddWidth',
     f'the width of m1 is odd: 101 database units. The middle line of a wire is on a database unit, so the width is even. {UNITS}'),
    ('  SPACING 0.1 ;\n', '  SPACING 2000001 ;\n', 6, 'TooLarge', 'a length of m1 is beyond 2000000000 database units.'),
    ('  SPACING 0.1 ;\n', '  SPACING 2000000001 ;\n', 6, 'TooLarge', '2000000001 is beyond 2,000 metres.'),
    ('END m1\n', 'END m1\nLAYER m1 TYPE CUT ; END m1\n', 8, 'DuplicateName', 'layer m1 is defined twice. The first one is in tech.lef:2. Leave one of the two out.'),
    ('VIA V12 DEFAULT', 'VIA V12 END V12\nVIA V12 DEFAULT', 13, 'DuplicateName', 'via V12 is defined twice. The first one is in tech.lef:12. Leave one of the two out.'),
    ('END core\n', 'END core\nSITE core SIZE 0.3 BY 2.0 ; END core\n', 18, 'DuplicateName',
     'site core is defined twice, with another size. The first one is in tech.lef:17. Leave one of the two out.'),
    ('END LIBRARY', 'MACRO INV SIZE 1 BY 1 ; END INV\nEND LIBRARY', 40, 'DuplicateName', 'macro INV is defined twice. The first one is in tech.lef:18. Leave one of the two out.'),
    ('PIN Y\n', 'PIN A END A PIN Y\n', 29, 'DuplicateName', 'pin A is defined twice.'),
    ('SIZE 0.4 BY 2.0 ;', 'SIZE 0.4 BY 0 ;', 19, 'EmptyRect', 'a size has no area, at 0.4.'),
    ('  SIZE 0.4 BY 2.0 ;\n', '', 38, 'Unexpected', 'macro INV has no SIZE, at END.'),
    ('SITE core ;', 'SITE core ; SITE core ;', 21, 'Unsupported', f'SITE appears twice. A macro has one site. {NO_TOOL}'),
    ('SITE core ;', 'SITE core 0 0 N DO 1 BY 1 STEP 1 1 ;', 21, 'Unsupported', f'SITE of a macro with more than a name. A macro has one site, and no pattern of sites. {NO_TOOL}'),
    ('SITE core ;', 'SITE other ;', 21, 'UnknownName', f'there is no site other. {NO_LEF}'),
    (PIN_RECT, 'POLYGON 0 0 1 0 1 1 ;', 26, 'Unsupported', f'POLYGON in a geometry is not supported. {RECTANGLES} {RECTILINEAR}'),
    (PIN_RECT, 'PATH 0 0 1 0 ;', 26, 'Unsupported', f'PATH in a geometry is not supported. {RECTANGLES} {STRAIGHT}'),
    (PIN_RECT, 'VIA 0 0 V12 ;', 26, 'Unsupported', f'VIA in a geometry is not supported. {RECTANGLES} {WIDE}'),
    (PIN_RECT, 'RECT MASK 1 0 0 1 1 ;', 26, 'Unsupported', f'RECT MASK is not supported. {MASKS} {DROPPED_MASKS}'),
    (PIN_RECT, 'RECT ITERATE 0 0 1 1 DO 2 BY 1 STEP 2 0 ;', 26, 'Unsupported',
     f'RECT ITERATE is not supported. A rectangle is repeated in columns and rows. {WIDE}'),
    (PIN_RECT, 'RECT 0.1000000001 0.1 0.2 0.2 ;', 26, 'BadNumber',
     f'a length of at most six decimals was expected, not 0.1000000001. It is finer than a millionth of a micron. {PLAIN_LENGTH}'),
    (PIN_RECT, 'RECT 1e-1 0.1 0.2 0.2 ;', 26, 'BadNumber',
     f'a length of at most six decimals was expected, not 1e-1. A length of a LEF is a sign, digits and maybe a point. {PLAIN_LENGTH}'),
    (OBS_RECT, 'LAYER m1 EXCEPTPGNET ;', 37, 'Unsupported', f'EXCEPTPGNET is not supported. The obstruction does not keep out power and ground nets. lefdef --wide reads it as one that does.'),
    (OBS_RECT, 'LAYER m9 ; POLYGON 0 0 ;', 37, 'UnknownName', f'there is no layer m9. {NO_LEF}'),
    (OBS_RECT, 'FOO 1 ;', 37, 'Unexpected', 'a form of a geometry was expected, not FOO. ' + OUT_OF_PLACE),
    ('END INV', 'END inv', 39, 'Unexpected', 'END INV was expected, not inv.'),
    ('END LIBRARY', 'END LIBRARY LAYER m4 TYPE CUT ; END m4', 40, 'Unexpected', 'nothing may follow END LIBRARY, at LAYER.'),
    ('END LIBRARY', '"', 40, 'UnclosedString', 'a quoted word is not closed.'),
)
# Rules of the LEF that the wide profile refuses: what is put before the END of the library, the line, the kind, and the sentences.
WIDE_RULES = (
    ('NONDEFAULTRULE r LAYER m1 WIDTH 0.2 ; END m1 LAYER m1 WIDTH 0.2 ; END m1 END r', 'Unexpected',
     'layer m1 appears twice in a rule, at LAYER. A rule tells the width of a layer once. Leave one of the two out.'),
    ('NONDEFAULTRULE r END r NONDEFAULTRULE r END r', 'DuplicateName', 'rule r is defined twice. Leave one of the two out.'),
    ('NONDEFAULTRULE r LAYER m9 WIDTH 0.2 ; END m9 END r', 'UnknownName', f'there is no layer m9. {NO_LEF}'),
    ('NONDEFAULTRULE r LAYER m1 SPACING 0.2 ; END m1 END r', 'Unexpected', 'layer m1 of a rule has no WIDTH, at END.'),
    ('NONDEFAULTRULE r LAYER m1 WIDTH 0.2005 ; END m1 END r', 'NotOnUnit',
     f'a length of r is no whole number of database units: 0.2005 microns at 1000 units a micron. No length is rounded. {UNITS}'),
)
# Vias of the LEF that are not good: what is replaced, by what, and why a wire that names the via is refused.
BAD_VIAS = (
    ('  LAYER m1 ; RECT', '  VIARULE r ; LAYER m1 ; RECT', 'it has the statement VIARULE'),
    ('  LAYER m1 ; RECT', '  LAYER m1 ; POLYGON 0 0 ; RECT', 'it has the statement POLYGON'),
    ('  LAYER m1 ; RECT', '  LAYER m1 ; RECT MASK 1', 'it has the statement RECT MASK'),
    ('  LAYER m2 ; RECT -0.05', '  LAYER m2 ; RECT 0', 'a rectangle of it on m2 does not have the point 0 0 inside'),
    ('  LAYER m2 ; RECT', '  LAYER m3 ; RECT', 'another routing layer is between m1 and m3'),
    ('  LAYER v1 ; RECT', '  LAYER well ; RECT', 'its rectangles are not on two routing layers and one cut layer between them'),
)
# Forms that the wide profile refuses, the same: each in it, with masks refused and soft blockages too.
GENERATED = '- big + VIARULE r + CUTSIZE 20 20 + LAYERS m1 v1 m2 + CUTSPACING 20 20 + ENCLOSURE 10 10 10 10'
BIG = '- big + RECT m1 ( -50 -50 ) ( 50 50 ) + RECT v1 ( -50 -50 ) ( 50 50 ) + RECT m2 ( -50 -50 ) ( 50 50 )'
WIDE_FORMS = (
    (PORT, '+ POLYGON m1 ( 0 0 ) ( 9 0 ) ( 9 9 ) ' + PORT, 15, 'Unsupported', f'POLYGON with a slanted side is not supported. {RECTANGLES} {NO_TOOL}'),
    (BLOCKED, '- LAYER m2 POLYGON ( 1 1 ) RECT', 19, 'EmptyRect', 'a polygon has no area, at POLYGON.'),
    (STRAP, '+ POLYGON m1 ( 0 0 ) ( 9 0 ) ( 9 9 ) ' + STRAP, 23, 'Unsupported', f'POLYGON with a slanted side is not supported. {RECTANGLES} {NO_TOOL}'),
    (NET, '- n2 ( u1 Y ) + NONDEFAULTRULE wide ;', 28, 'UnknownName',
     'there is no nondefault rule wide. Nothing before this place defines it: check its spelling and its capitals.'),
    (WIRE, 'm1 TAPERRULE wide ( 100 150 ) ( 300 150 )', 27, 'UnknownName',
     'there is no nondefault rule wide. Nothing before this place defines it: check its spelling and its capitals.'),
    (STRAP, '+ NONDEFAULTRULE wide ' + STRAP, 23, 'Unsupported', f'NONDEFAULTRULE of a net is not supported. {RULE} {PLAIN_RULE}'),
    (WIRE, WIRE + ' V12 FN S', 27, 'Unsupported',
     'the orientation of a via in wiring is not supported. The via is turned or mirrored. lefdef --wide reads one orientation behind a via.'),
    *((BIG, f'{GENERATED} + {word} any', 8, 'Unsupported', f'{word} of a generated via is not supported. A generated via has its numbers, and no shapes beside them. {NO_TOOL}')
      for word in ('RECT', 'POLYGON', 'PATTERNNAME', 'MASK')),
    (BIG, GENERATED.replace('CUTSIZE 20', 'CUTSIZE 21'), 8, 'BadVia',
     f'the cuts of a via are an odd number of units wide or high. The middle of the cuts of a generated via is on a database unit. {UNITS}'),
    (BIG, GENERATED.replace('+ CUTSIZE 20 20 ', ''), 8, 'Unexpected', 'a generated via lacks CUTSIZE, at -.'),
    (BIG, f'{GENERATED} + ROWCOL 73 137', 8, 'TooLarge', 'a via has more than 10,000 cuts.'),
    (STRAP, '+ RECT m1 ( 0 0 ) ( 1 1 )', 23, 'Unsupported',
     f'a square of one unit is not supported. A rectangle of a special net is read as wires, whose width is even. {NO_TOOL}'),
    (STRAP, '+ MASK 1 + RECT m1 ( 0 0 ) ( 9 9 )', 23, 'Unsupported', f'MASK of a net is not supported. {MASKS} lefdef --wide --masks drop reads past it in SPECIALNETS.'),
    ('TRACKS X', 'ROW t core 0 0 W ;\nTRACKS X', 6, 'BadRow',
     'components have the site core of a row that is turned, or of several rows. A row that is turned, or is of several rows, is read past where nothing can stand '
     f'in it. {NO_TOOL}'),
    ('- PLACEMENT RECT', '- PLACEMENT + SLOTS RECT', 18, 'Unsupported',
     f'SLOTS of a blockage is not supported. The blockage keeps out slots, and no wires. {WIDE_OF_LAYERS}'),
)
# A comb of 1,414 teeth, each higher than the one to the west of it.
COMB = ' '.join(f'{(2 * n + 1) / 1000} 1 {(2 * n + 1) / 1000} {(n + 1001) / 1000} {n / 500} {(n + 1001) / 1000} {n / 500} 1' for n in range(1413, -1, -1))
COMB = f'2.827 0 {COMB}'
# The same of a LEF: what is in place of the rectangle of a pin, of a macro without its end.
WIDE_LEF_FORMS = (
    ('POLYGON 0 0 1 0 1 1 ;', 'Unsupported', f'POLYGON with a slanted side is not supported. {RECTANGLES} {NO_TOOL}'),
    ('POLYGON 0 0 1 0 1 0.5 1 0 ;', 'EmptyRect', 'a polygon has no area, at POLYGON.'),
    ('POLYGON ;', 'EmptyRect', 'a polygon has no area, at POLYGON.'),
    (f'POLYGON 0 0 {COMB} ;', 'TooLarge', 'a polygon has more than 1,000,000 slabs.'),
    ('POLYGON MASK 1 0 0 1 0 1 1 0 1 ;', 'Unsupported', f'POLYGON MASK is not supported. {MASKS} {DROPPED_MASKS}'),
    ('PATH 0 0 1 0 1.1 1 ;', 'Unsupported', f'PATH with a slanted line is not supported. {RECTANGLES} {NO_TOOL}'),
    ('WIDTH 0.000001 ; PATH 0 0 1 0 ;', 'Unsupported',
     f'PATH of an odd width is not supported. The middle line of a path is on a millionth of a micron, so the width is even. {NO_TOOL}'),
    ('LAYER v1 ; PATH 0 0 1 0 ;', 'Unsupported',
     f'PATH on a cut layer without a WIDTH is not supported. No wire runs on a layer of cuts, so it has no width for a path. {NO_TOOL}'),
    ('PATH 2000000000 0 ;', 'Unsupported',
     f'PATH beyond 2,000 metres is not supported. The path reaches half its width beyond its points. {NO_TOOL}'),
    ('WIDTH any ; PATH 0 0 1 0 ;', 'Unsupported',
     f'PATH behind a WIDTH that is no length above 0 is not supported. A WIDTH holds up to the next WIDTH or LAYER. {NO_TOOL}'),
    ('PATH MASK 1 0 0 1 0 ;', 'Unsupported', f'PATH MASK is not supported. {MASKS} {DROPPED_MASKS}'),
    ('PATH ITERATE 0 0 1 0 DO 2 BY 1 STEP 2 0 ;', 'Unsupported', f'PATH ITERATE is not supported. A path is repeated in columns and rows. {NO_TOOL}'),
    ('VIA MASK 1 0 0 V12 ;', 'Unsupported', f'VIA MASK is not supported. {MASKS} {DROPPED_MASKS}'),
    ('VIA 0 0 V9 ;', 'UnknownName', 'there is no via V9. Nothing before this place defines it: check its spelling and its capitals.'),
    ('POLYGON ITERATE 0 0 1 0 1 1 0 1 DO 2 BY 0 STEP 2 0 ;', 'TooLarge', 'there is no copy.'),
    ('RECT ITERATE 0 0 1 1 DO 2001 BY 2000 STEP 2 0 ;', 'TooMany', 'there are more than 4,000,000 rectangles of copies.'),
)
