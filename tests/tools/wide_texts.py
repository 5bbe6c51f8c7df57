"""Texts with forms of the wide profile: a technology with a nondefault rule, cells with polygons, paths and copies, and a block."""

# Metal to KLayout, and none to lefdef.
WELL = '      LAYER well ;\n        POLYGON 0 0 1 0 1 1 ;\n'
TECHNOLOGY = '''UNITS DATABASE MICRONS 1000 ; END UNITS
LAYER well TYPE MASTERSLICE ; END well
LAYER m1 TYPE ROUTING ; DIRECTION HORIZONTAL ; WIDTH 0.1 ; SPACING 0.1 ; END m1
LAYER v1 TYPE CUT ; SPACING 0.1 ; END v1
LAYER m2 TYPE ROUTING ; DIRECTION VERTICAL ; WIDTH 0.1 ; SPACING 0.1 ; END m2
VIA V12 DEFAULT LAYER m1 ; RECT -0.06 -0.05 0.1 0.05 ; LAYER v1 ; RECT -0.05 -0.05 0.05 0.05 ; LAYER m2 ; RECT -0.05 -0.05 0.05 0.05 ; END V12
SITE core CLASS CORE ; SIZE 0.2 BY 2.0 ; END core
NONDEFAULTRULE wide
  HARDSPACING ;
  LAYER m1 WIDTH 0.2 ; SPACING 0.3 ; END m1
  LAYER m2 WIDTH 0.24 ; SPACING 0.3 ; WIREEXTENSION 0.12 ; END m2
  VIA VW LAYER m1 ; RECT -0.1 -0.1 0.1 0.1 ; LAYER v1 ; RECT -0.05 -0.05 0.05 0.05 ; LAYER m2 ; RECT -0.12 -0.1 0.12 0.1 ; END VW
  USEVIA V12 ;
  MINCUTS v1 1 ;
END wide
END LIBRARY
'''
CELLS = '''VERSION 5.8 ;
MACRO INV
  CLASS CORE ;
  SIZE 0.4 BY 2.0 ;
  SITE core ;
  PIN A
    PORT
      LAYER m1 ;
        POLYGON 0 0.8 0.2 0.8 0.2 0.9 0.1 0.9 0.1 1.1 0 1.1 ;
      LAYER well ;
        POLYGON 0 0 1 0 1 1 ;
    END
  END A
  PIN Y PORT LAYER m1 ; RECT 0.3 0.85 0.35 1.05 ; LAYER m2 ; PATH 0.3 0.9 0.3 1.2 0.1 1.2 ; END END Y
  OBS LAYER m1 ; POLYGON ( 0 1.3 ) ( 0 1.4 ) ( 0.2 1.4 ) ( 0.2 1.6 ) ( 0 1.6 ) ( 0 1.7 ) ( 0.4 1.7 ) ( 0.4 1.3 ) ;
    RECT ITERATE 0 0.1 0.1 0.2 DO 2 BY 2 STEP 0.2 0.3 ; WIDTH 0.06 ; PATH 0.1 1.8 0.3 1.8 ; END
END INV
END LIBRARY
'''
HEAD = '''VERSION 5.8 ;
DESIGN d ;
UNITS DISTANCE MICRONS 1000 ;
DIEAREA ( 0 0 ) ( 20000 20000 ) ;
'''
COMPONENTS = '''COMPONENTS 2 ;
- u1 INV + PLACED ( 0 0 ) N ;
- u2 INV + PLACED ( 1000 0 ) N ;
END COMPONENTS
'''
RULES = '''NONDEFAULTRULES 1 ;
- double + HARDSPACING + LAYER m1 WIDTH 200 SPACING 200 WIREEXT 100
  + LAYER m2 WIDTH 220 + VIA V12 ;
END NONDEFAULTRULES
'''


PINS = '''- p + NET p + LAYER m1 ( 0 0 ) ( 10 20 )
  + POLYGON m2 SPACING 50 ( 0 0 ) ( 100 0 ) ( 100 40 ) ( 30 40 ) ( 30 90 ) ( 0 90 )
  + VIA V12 ( 200 -100 ) + PLACED ( 15000 15000 ) FW ;
'''
BLOCKAGES = '- LAYER m1 + PUSHDOWN POLYGON ( 0 0 ) ( 0 9 ) ( 5 9 ) ( 5 4 ) ( 9 4 ) ( 9 0 ) RECT ( 20 0 ) ( 30 5 ) ;\n'


def block(special='', nets='', vias='', rules=RULES, **others):
    """Returns a block with these entries of SPECIALNETS, NETS, VIAS, and of `others`, PINS and BLOCKAGES."""
    sections = [(name, entries) for name, entries in (*others.items(), ('SPECIALNETS', special), ('NETS', nets)) if entries]
    text = HEAD + (f'VIAS {vias.count(" ;")} ;\n{vias}END VIAS\n' if vias else '') + rules + COMPONENTS
    return text + ''.join(f'{name} {entries.count(" ;")} ;\n{entries}END {name}\n' for name, entries in sections) + 'END DESIGN\n'


GENERATED = '''- made + VIARULE rule + CUTSIZE 20 40 + LAYERS m1 v1 m2 + CUTSPACING 10 30
  + ENCLOSURE 5 6 7 8 + ROWCOL 2 3 ;
'''
# All forms of vias and nets at once, each as KLayout 0.28 reads it, too: it takes one point behind + VIA, no via behind RECT, and no polygon or
# via of a pin.
EVERY_FORM = block('''- VDD
  + RECT m1 ( 5000 5000 ) ( 5101 5201 )
  + ROUTED + SHAPE RING + RECT m2 ( 6000 5000 ) ( 6101 5200 )
  + SHAPE STRIPE + POLYGON m2 ( 7000 5000 ) ( 7300 5000 ) ( 7300 5100 ) ( 7100 5100 ) ( 7100 5400 ) ( 7000 5400 )
  + FIXED + VIA made ( 8000 5000 )
  + VIA V12 S ( 8500 5000 )
  + ROUTED m1 400 + SHAPE STRIPE ( 9000 5000 ) ( 9900 5000 ) made DO 3 BY 2 STEP 100 150 ( 9900 5800 )
    NEW m1 400 ( 9000 8000 ) ( 9900 8000 ) V12 FN
  + USE POWER ;
- x + ROUTED m1 100 ( 0 9000 ) ( 300 9000 ) V12 DO 2 BY 1 STEP -300 0 ;
''', '''- n1 ( u1 A ) ( u2 A )
  + NONDEFAULTRULE wide
  + ROUTED m1 ( 100 10000 ) ( 1100 10000 ) VW ( 1100 12000 ) ( 2000 * 0 )
    NEW m1 TAPER ( 100 11000 ) ( 400 11000 ) V12
    NEW m1 ( 5 6 )
    NEW m2 TAPERRULE double ( 3000 12000 40 ) ( 3000 14000 ) V12
  + USE SIGNAL ;
- n2 ( u1 Y ) + ROUTED m1 TAPERRULE wide ( 100 15000 ) ( 1100 15000 ) V12 W NEW m1 ( 100 17000 ) ( 200 17000 ) RECT ( 0 0 300 400 ) ;
''', GENERATED)
