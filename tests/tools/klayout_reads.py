"""Runs inside KLayout (klayout -b -r), for tests/tools/with-klayout: reads marker databases and layouts, and says what is in them.

`asked` is a file with a list of cases in JSON, each with a database, a DEF, its LEFs and its units a micron; the answers go to the file
`answers`: for each case the cells, the categories with their items, the boxes of the items in database units, and for each layer the
area of metal, and the area that is metal in one of KLayout's layout and the rectangles of the case, but not in both; or why KLayout does not
read the texts.
"""
import json

import pya


def database(path):
    found = pya.ReportDatabase('')
    found.load(path)
    cells = [cell.name() for cell in found.each_cell()]
    items = []
    for item in found.each_item():
        values = [value.to_s() for value in item.each_value()]
        boxes = [value.box() for value in item.each_value() if value.is_box()]
        items.append({
            'category': found.category_by_id(item.category_id()).path(),
            'cell': found.cell_by_id(item.cell_id()).qname(),
            'boxes': [[box.left, box.bottom, box.right, box.top] for box in boxes],
            'values': values,
        })
    return {'top': found.top_cell_name, 'cells': cells, 'count': found.num_items(), 'items': items,
            'categories': {category.name(): category.num_items() for category in found.each_category()}}


def layout(case):
    options = pya.LoadLayoutOptions()
    config = options.lefdef_config
    config.lef_files = case['lefs']
    config.read_lef_with_def = False
    config.macro_resolution_mode = 1
    config.dbu = 1 / case['units']
    found = pya.Layout()
    found.read(case['def'], options)
    return found


def metal(found, case):
    """Returns for each layer its area in the layout, and how much differs from the case's rectangles."""
    ours, theirs = {}, {}
    for layer, *sides in case['metal']:
        ours.setdefault(layer, pya.Region()).insert(pya.Box(*sides))
    for index in found.layer_indexes():
        name, _, purpose = found.get_info(index).name.partition('.')
        if purpose not in ('LABEL', 'BLK') and name not in ('OUTLINE', 'PLACEMENT_BLK'):
            theirs.setdefault(name, pya.Region()).insert(found.top_cell().begin_shapes_rec(index))
    none = pya.Region()
    return {name: [theirs.get(name, none).merged().area(), (ours.get(name, none) ^ theirs.get(name, none)).area()]
            for name in sorted(set(ours) | set(theirs)) if ours.get(name, none).area() or theirs.get(name, none).area()}


def answer(case):
    try:
        found = layout(case)
    except RuntimeError as error:
        return {'unread': str(error)}
    return {'database': database(case['database']), 'top': [cell.name for cell in found.top_cells()], 'metal': metal(found, case)}


with open(asked, encoding='utf-8') as file:  # noqa: F821 (KLayout defines it by -rd)
    cases = json.load(file)
with open(answers, 'w', encoding='utf-8') as file:  # noqa: F821
    json.dump([answer(case) for case in cases], file)
