"""Tests of what tools/view is made of: the groups of a net's pieces and the joints between them, and where names and numbers stand in a picture."""
import os
import random
import re
import sys
import time
import unittest

sys.path.insert(0, os.path.dirname(os.path.abspath(__file__)))
from view_tests import STANDARD, SVG, TOP, ViewCase  # noqa: E402

sys.path.insert(0, os.path.join(TOP, 'tools'))
from lefdef_text import Rect, grown, meets  # noqa: E402
from missing_joints import NetGroups, between, squared_distance  # noqa: E402
from picture_names import LETTER, Names, View  # noqa: E402

BOX = re.compile(r'x="([0-9.]+)" y="([0-9.]+)" dy="0.35em" text-anchor="middle" font-size="([0-9.]+)"[^>]*?(rotate)?[^>]*>([^<]*)<')


def random_pieces(chance, count, reach):
    """Returns pieces of up to five rectangles on three layers; some have none."""
    def shape():
        x, y = chance.randrange(reach), chance.randrange(reach)
        return chance.randrange(3), Rect(x, y, x + chance.randint(1, 12), y + chance.randint(1, 12))
    return [[shape() for _ in range(chance.choice((0, 1, 1, 1, 2, 5)))] for _ in range(count)]


def plain_groups(pieces):
    """Returns the least number of a piece that is joined to each piece, from the definition: two points on one layer are shared."""
    group = list(range(len(pieces)))

    def are_joined(a, b):
        points = {}
        for layer, rect in pieces[a]:
            for other_layer, other in pieces[b]:
                if layer == other_layer and meets(rect, other):
                    box = between(rect, other)
                    points.setdefault(layer, set()).update((box[:2], box[2:]))
        return any(len(found) > 1 for found in points.values())

    for a in range(len(pieces)):
        for b in range(a):
            if group[a] != group[b] and are_joined(a, b):
                low, high = sorted((group[a], group[b]))
                group = [low if it == high else it for it in group]
    return group


def plain_gaps(pieces, group):
    """Returns the gaps of a least spanning tree of the groups with metal, found by growing it from the first one."""
    metal = {}
    for piece, shapes in enumerate(pieces):
        metal.setdefault(group[piece], []).extend(shapes)
    left = [shapes for shapes in metal.values() if shapes]
    tree, gaps = [left.pop(0)] if left else [], []
    while left:
        gap, at = min(((squared_distance(a, b), abs(low - high)), at) for at, shapes in enumerate(left) for high, b in shapes for of in tree for low, a in of)
        gaps.append(gap)
        tree.append(left.pop(at))
    return sorted(gaps)


class JointTests(unittest.TestCase):
    """The groups of the pieces of a net, and the joints that are missing."""

    def test_groups_and_joints_are_those_of_the_definition(self):
        chance = random.Random(7)
        for _ in range(120):
            pieces = random_pieces(chance, chance.randint(1, 25), chance.choice((20, 60, 200)))
            net = NetGroups(pieces)
            with self.subTest(pieces=pieces):
                self.assertEqual(net.group, plain_groups(pieces))
                joints = net.joints()
                self.assertEqual(sorted((joint.squared, joint.steps) for joint in joints.values()), plain_gaps(pieces, net.group))
                self.check_joints(net, pieces, joints)

    def check_joints(self, net, pieces, joints):
        """Each joint leads from its group to one that is nearer to the first, and its gap is that between its two rectangles."""
        first = next((net.group[piece] for piece, shapes in enumerate(pieces) if shapes), None)
        self.assertNotIn(first, joints)
        for group, joint in joints.items():
            near, far = net.group[joint.near.piece], net.group[joint.far.piece]
            self.assertEqual((near, joint.squared), (group, squared_distance(joint.near, joint.far)))
            for end in (joint.near, joint.far):
                self.assertIn((end.layer, end.rect()), pieces[end.piece])
            steps = 0
            while far != first:
                far, steps = net.group[joints[far].far.piece], steps + 1
                self.assertLess(steps, len(joints))

    def test_a_net_without_metal(self):
        net = NetGroups([[], [], []])
        self.assertEqual((net.group, net.joints(), net.has_metal(0)), ([0, 1, 2], {}, False))

    def test_a_net_of_10000_pieces(self):
        chance = random.Random(3)
        places = [(chance.randrange(2_000_000), chance.randrange(1_000) * 2_000) for _ in range(10_000)]
        began = time.monotonic()
        net = NetGroups([[(0, Rect(x, y, x + 300, y + 100))] for x, y in places])
        self.assertEqual(len(net.joints()), len(set(net.group)) - 1)
        self.assertLess(time.monotonic() - began, 40)


class NameTests(ViewCase):
    """Names and numbers in a picture."""

    def boxes(self, texts):
        """Returns the names and the boxes that they take on the page."""
        found = []
        for text in texts:
            x, y, size, turn, name = BOX.search(text).groups()
            reach = float(size) / 2 * (LETTER * len(name)), float(size) / 2
            across, along = reversed(reach) if turn else reach
            found.append((name, Rect(float(x) - across, float(y) - along, float(x) + across, float(y) + along)))
        return found

    def test_names_of_wires_that_cross_on_two_layers(self):
        names = Names(View(Rect(0, 0, 1000, 1000), 0.5))
        wires = Rect(0, 450, 1000, 550), Rect(450, 0, 550, 1000), Rect(0, 440, 1000, 560)
        texts = [names.name(wire, name, 12, '#111111') for wire, name in zip(wires, ('first[1]', 'second[2]', 'third[3]'))]
        boxes = self.boxes(texts)
        self.assertEqual([name for name, _ in boxes], ['first[1]', 'second[2]', 'third[3]'])
        for at, (_, a) in enumerate(boxes):
            for _, b in boxes[at + 1:]:
                self.assertFalse(meets(a, grown(b, -1)))

    def test_a_name_without_room_is_left_out(self):
        names = Names(View(Rect(0, 0, 1000, 1000), 0.5))
        room = Rect(0, 0, 60, 40)
        self.assertIsNotNone(names.name(room, 'a', 12, '#111111'))
        self.assertIsNone(names.name(room, 'b', 12, '#111111'))
        self.assertIsNone(names.name(Rect(500, 500, 510, 510), 'c', 12, '#111111'))

    def block_of(self, count):
        """Writes a block of this number of cells, each 10 beside its sites, and the list of them."""
        cells = ''.join(f'- u{at} INV + PLACED ( {410 + at % 50 * 800} {at // 50 * 2000} ) N ;\n' for at in range(count))
        rows = ''.join(f'ROW r{at} core 0 {2000 * at} N DO 210 BY 1 STEP 200 0 ;\n' for at in range(-(-count // 50)))
        block = self.write('block.def', 'DESIGN top ; UNITS DISTANCE MICRONS 1000 ; DIEAREA ( 0 0 ) ( 42000 20000 ) ;\n'
                           f'{rows}COMPONENTS {count} ;\n{cells}END COMPONENTS END DESIGN\n')
        return block, self.write('lines', ''.join(f'OFFSITE u{at}\n' for at in range(count)) + f'violations {count}\n')

    @staticmethod
    def places(picture):
        """Returns how many places the thin lines of a picture go round."""
        return sum(path.get('d').count('M') for path in picture.group('marks').findall(f"{SVG}path[@class='places']"))

    def test_each_of_two_hundred_violations_has_its_number(self):
        block, lines = self.block_of(200)
        picture = self.picture(block, STANDARD, '--violations', lines)
        self.assertEqual([text.text for text in picture.group('mark-numbers').findall(f'{SVG}text')], [str(number) for number in range(1, 201)])
        self.assertEqual(self.places(picture), 200)
        self.assertEqual(picture.listed()[-1], 'and 160 more')

    def test_more_violations_are_numbered_by_squares_of_the_page(self):
        block, lines = self.block_of(450)
        picture = self.picture(block, STANDARD, '--violations', lines)
        texts = [text.text for text in picture.group('mark-numbers').findall(f'{SVG}text')]
        self.assertLess(len(texts), 100)
        self.assertEqual(sum(1 + int(text.partition(' +')[2] or 0) for text in texts), 450)
        self.assertEqual(self.places(picture), 450)
        self.assertIn('1', [text.split(' ')[0] for text in texts])


if __name__ == '__main__':
    unittest.main()
