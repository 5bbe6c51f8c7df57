"""Tests of the readers in the page of web/, run by node: the data of a picture is that of tools/view, in the narrow profile and in the wide one. Without
node they are not tried, and that is said."""
import json
import os
import shutil
import subprocess
import sys
import tempfile
import unittest

sys.path.insert(0, os.path.dirname(os.path.abspath(__file__)))
from view_tests import STANDARD, TOP  # noqa: E402
from web_tests import CASES, Case, differing, text_of, unpacked  # noqa: E402
from wide_texts import BLOCKAGES, CELLS, EVERY_FORM, PINS, TECHNOLOGY, block  # noqa: E402

sys.path.insert(0, os.path.join(TOP, 'tools'))
from block_page import PageData  # noqa: E402
from lefdef_text import NARROW, Profile, Refused, read_design, read_library  # noqa: E402
from web_page import WORKER, read, script_of  # noqa: E402

NODE = shutil.which('node')
READER = os.path.join(os.path.dirname(os.path.abspath(__file__)), 'page_reader.js')


def load_tests(loader, tests, pattern):
    """Returns the tests of this file, or none where there is no node."""
    if not NODE:
        print('reader_tests: node is not installed, so the readers of the page are not tried alone', file=sys.stderr)
        return unittest.TestSuite()
    return tests


class ReaderTests(unittest.TestCase):
    """The data of pictures."""

    @classmethod
    def setUpClass(cls):
        cls.room = tempfile.mkdtemp()
        cls.addClassCleanup(shutil.rmtree, cls.room, ignore_errors=True)
        worker = cls.write('worker.js', script_of(*(read('web', f'{name}.js') for name in WORKER)))
        cls.reader = subprocess.Popen([NODE, READER, worker], stdin=subprocess.PIPE, stdout=subprocess.PIPE, text=True)
        cls.addClassCleanup(cls.reader.communicate)

    @classmethod
    def write(cls, name, text):
        path = os.path.join(cls.room, name)
        with open(path, 'wb') as file:
            file.write(text.encode('utf-8', 'surrogateescape'))
        return path

    def assert_drawn(self, design_path, libraries, profile=NARROW):
        """Tries that the page has the data that tools/view has, of texts in a profile."""
        asked = {'isWide': profile.is_wide, 'masks': 'drop' if profile.drops_masks else 'refused', 'soft': profile.soft or 'refused'}
        design = read_design(design_path, read_library(libraries, profile), profile)
        wanted = PageData(design, None, design.name).data()
        for group in ('shapes', 'components'):
            wanted[group] = {name: unpacked(numbers) for name, numbers in wanted[group].items()}
        wanted = json.loads(json.dumps(wanted))
        self.reader.stdin.write(json.dumps({'profile': asked, 'lefs': libraries, 'def': design_path, 'before': None, 'lines': None}) + '\n')
        self.reader.stdin.flush()
        found = json.loads(self.reader.stdout.readline())
        self.assertIsNone(found.get('failure'))
        self.assertTrue(found == wanted, f'another picture than that of tools/view: {differing(wanted, found)}')

    def test_each_case_of_the_program_that_is_read(self):
        drawn = {False: 0, True: 0}
        for name in sorted(os.listdir(CASES)):
            folder = os.path.join(CASES, name)
            # (an array of the most vias takes some gigabytes)
            if not os.path.exists(os.path.join(folder, 'words')) or os.path.exists(os.path.join(folder, 'make')) or 'most_vias' in name:
                continue
            one = Case(name, self.room)
            defs = one.words[1:3] if one.words[:1] == ['compare'] else one.words[1:2]
            libraries = [os.path.join(folder, word) for word in one.words[1 + len(defs):]]
            if not libraries or one.status() in (2, 4, 64) or not all(map(os.path.isfile, libraries)):
                continue
            profile = one.profile_of_texts()
            for design in defs:
                with self.subTest(case=name, design=design):
                    try:
                        self.assert_drawn(os.path.join(folder, design), libraries, profile)
                    except (Refused, OSError):
                        continue
                    drawn[profile.is_wide] += 1
        self.assertTrue(drawn[False] > 100 and drawn[True] > 60, drawn)

    def test_all_forms_of_the_wide_profile(self):
        libraries = [self.write('tech.lef', TECHNOLOGY), self.write('cells.lef', CELLS)]
        for text in (EVERY_FORM, block(PINS=PINS, BLOCKAGES=BLOCKAGES), block(PINS=PINS, BLOCKAGES=BLOCKAGES.replace('LAYER m1', 'PLACEMENT + SOFT'))):
            for soft in ('drop', 'hard'):
                self.assert_drawn(self.write('block.def', text), libraries, Profile(True, True, soft))

    def test_geometries_and_vias_of_a_library(self):
        text = text_of(STANDARD)
        layers = text[:text.index('MACRO')]
        placed = 'DESIGN d ;\nUNITS DISTANCE MICRONS 1000 ;\nDIEAREA ( 0 0 ) ( 800 2000 ) ;\nCOMPONENTS 1 ;\n- u M + PLACED ( 0 0 ) FE ;\nEND COMPONENTS\n'
        made = ('VIA made VIARULE r ; CUTSIZE 0.02 0.02 ; LAYERS m1 v1 m2 ; CUTSPACING 0.02 0.02 ; ENCLOSURE 0.01 0.01 0.02 0.03 ; ROWCOL 2 3 ; PATTERN 1_A_1_6 ; END made\n'
                'VIA none VIARULE r ; CUTSIZE 0.02 ; END none\nVIA drawn LAYER m1 ; POLYGON -0.1 -0.1 0.1 -0.1 0.1 0.1 -0.1 0.1 ; LAYER v1 ; RECT MASK 1 0 0 0.1 0.1 ;\n'
                'LAYER m2 ; POLYGON MASK 2 -0.1 -0.1 0.1 -0.1 0.1 0.1 -0.1 0.1 ; END drawn\n')
        for geometry in ('VIA 0 0 made ;', 'VIA ITERATE MASK 12 0.1 0 made DO 2 BY 3 STEP 0.5 -0.4 ;', 'LAYER m1 ; RECT ITERATE 0 0 0.1 0.2 DO 2 BY 2 STEP 0.3 0.4 ;',
                         'LAYER m1 ; POLYGON MASK 1 ITERATE 0 0 0.2 0 0.2 0.1 0.1 0.1 0.1 0.3 0 0.3 DO 1 BY 2 STEP 0 1 ; VIA 0.5 0.5 drawn ; RECT 0 0 1 1 ;',
                         'LAYER m1 ; PATH 0 0.1 0.4 0.1 0.4 1 ; WIDTH 0.2 ; PATH ( 0.5 0.5 ) ; PATH MASK 1 0 0 0 1 ;',
                         'LAYER m1 ; WIDTH 0.2 ; LAYER m2 ; PATH 0.6 0.2 ( 0.6 1 ) 0.1 1 ; WIDTH x ; RECT 0 0 1 1 ;',
                         'LAYER m1 ; WIDTH 0.2 ; WIDTH 0 ; LAYER v1 ; WIDTH x ; WIDTH +.3000000 any ; PATH 0.2 0.2 0.2 0.3 ;',
                         'LAYER m2 EXCEPTPGNET ; POLYGON ( 0 0 ) ( 1 0 ) ( 1 2 ) ( 2 2 ) ( 2 1 ) ( 0 1 ) ;'):
            macros = f'MACRO N SIZE 1 BY 1 ; OBS LAYER m1 ; PATH 0 0 1 1 ; POLYGON ; END PIN A PORT END A END N\nMACRO M SIZE 1 BY 2 ; OBS {geometry} END END M\n'
            with self.subTest(geometry=geometry):
                self.assert_drawn(self.write('block.def', f'{placed}END DESIGN\n'), [self.write('cells.lef', layers + made + macros)], Profile(True, True))

    def test_macros_that_are_left_out_for_a_path(self):
        text = text_of(STANDARD)
        design = self.write('block.def', 'DESIGN d ;\nUNITS DISTANCE MICRONS 1000 ;\nDIEAREA ( 0 0 ) ( 800 2000 ) ;\nCOMPONENTS 1 ;\n- u M + PLACED ( 0 0 ) N ;\n'
                            'END COMPONENTS\nEND DESIGN\n')
        # (a macro that is left out ends with its pin of the same name; if it were kept, the next macro would be a part of it)
        for statements in (*(f'LAYER m1 ; WIDTH 0.2 ; WIDTH {it} ; PATH 0 0 1 0 ;' for it in ('', '0', '-0.2', '+', '.', '0.2000001', '2e-1', 'x', '2000000001', '0.000003')),
                           'LAYER m1 ; PATH ;', 'LAYER m1 ; PATH 0 0 1 ;', 'LAYER v1 ; PATH 0 0 ;', 'PATH 0 0 ;', 'LAYER m1 ; PATH 0 0 1 1 ;',
                           'LAYER m1 ; PATH ITERATE 0 0 1 0 DO 1 BY 1 STEP 0 0 ;'):
            macros = f'MACRO M SIZE 1 BY 1 ; OBS {statements} END PIN M END M\nMACRO M SIZE 1 BY 2 ; OBS LAYER m1 ; WIDTH +.2000000 ; PATH 0.1 0.2 0.5 0.2 ; END END M\n'
            with self.subTest(statements=statements):
                self.assert_drawn(design, [self.write('cells.lef', text[:text.index('MACRO')] + macros)], Profile(True))


if __name__ == '__main__':
    unittest.main()
