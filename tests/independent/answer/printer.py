"""Writes a design as a DEF text in lefdef's layout."""
from .model import PlacedVia, Segment


def text_of(lines):
    """Returns a text of these lines."""
    return ''.join(line + '\n' for line in lines)


def design_text(design):
    """Returns the text of a design."""
    lines = ['VERSION 5.8 ;']
    if design.divider is not None:
        lines.append(f'DIVIDERCHAR {design.divider} ;')
    if design.bus_bits is not None:
        lines.append(f'BUSBITCHARS {design.bus_bits} ;')
    lines += [f'DESIGN {design.name} ;', f'UNITS DISTANCE MICRONS {design.units} ;', f'DIEAREA {corners(design.die)} ;']
    lines += [row_line(design, row) for row in design.rows]
    lines += [tracks_line(design, tracks) for tracks in design.tracks]
    lines += section('VIAS', [via_entry(design, via) for via in design.vias])
    lines += section('COMPONENTS', [component_entry(design, component) for component in design.components])
    lines += section('PINS', [pin_entry(design, pin) for pin in design.pins])
    lines += section('BLOCKAGES', [blockage_entry(design, blockage) for blockage in design.blockages])
    lines += section('SPECIALNETS', [net_entry(design, net, True) for net in design.special_nets])
    lines += section('NETS', [net_entry(design, net, False) for net in design.nets])
    lines.append('END DESIGN')
    return text_of(lines)


def point(place):
    return f'( {place[0]} {place[1]} )'


def corners(rect):
    return f'{point(rect[:2])} {point(rect[2:])}'


def place_words(item):
    """Returns the words of the place of a component or of a port."""
    return f'+ {item.status} {point(item.place)} {item.orientation}'


def section(word, entries):
    """Returns the lines of a section, none if it has no entries."""
    return [f'{word} {len(entries)} ;', *entries, f'END {word}'] if entries else []


def row_line(design, row):
    site = design.library.sites[row.site]
    return f'ROW {row.name} {site.name} {row.x} {row.y} {row.orientation} DO {row.count} BY 1 STEP {site.width} 0 ;'


def tracks_line(design, tracks):
    words = ['LAYER', *(design.library.layers[number].name for number in tracks.layers)] if tracks.layers else []
    return ' '.join([f'TRACKS {tracks.axis} {tracks.start} DO {tracks.count} STEP {tracks.step}', *words, ';'])


def via_entry(design, via):
    rects = [f'+ RECT {design.library.layers[layer].name} {corners(rect)}' for layer, rect in via.shapes]
    return ' '.join(['-', via.name, *rects, ';'])


def component_entry(design, component):
    words = place_words(component) if component.place else '+ UNPLACED'
    return f'- {component.name} {design.library.macros[component.macro].name} {words} ;'


def pin_entry(design, pin):
    words = ['-', pin.name]
    words += [f'+ {key} {word}' for key, word in (('NET', pin.net), ('DIRECTION', pin.direction), ('USE', pin.use)) if word is not None]
    for port in pin.ports:
        words.append('+ PORT')
        words += [f'+ LAYER {design.library.layers[layer].name} {corners(rect)}' for layer, rect in port.shapes]
        words += [place_words(port)] if port.place else []
    return ' '.join([*words, ';'])


def blockage_entry(design, blockage):
    words = ['PLACEMENT'] if blockage.layer is None else ['LAYER', design.library.layers[blockage.layer].name]
    return ' '.join(['-', *words, *(f'RECT {corners(rect)}' for rect in blockage.rects), ';'])


def net_entry(design, net, special):
    """Returns the lines of an entry of NETS or SPECIALNETS, joined."""
    words = ['-', net.name, *(f'( {terminal_words(design, terminal)} )' for terminal in net.terminals)]
    words += [f'+ USE {net.use}'] if net.use is not None else []
    text = ' '.join(words)
    for number, wire in enumerate(net.wires):
        text += f'\n  {"NEW" if number else "+ ROUTED"} {wire_words(design, wire, special)}'
    return f'{text} ;'


def terminal_words(design, terminal):
    """Returns the words of a terminal: its component, or PIN, and its pin."""
    component, pin = terminal
    if component is None:
        return f'PIN {design.pins[pin].name}'
    return f'{design.components[component].name} {design.macro_of(component).pins[pin].name}'


def wire_words(design, wire, special):
    """Returns the words of one wire as a path of its own."""
    layers = design.library.layers
    if isinstance(wire, PlacedVia):
        head = [layers[wire.via.joins[0]].name] + (['0'] if special else [])
        return ' '.join([*head, point(wire.point), wire.via.name])
    if isinstance(wire, Segment):
        default = 0 if special else layers[wire.layer].width // 2
        head = [layers[wire.layer].name] + ([str(wire.width)] if special else [])
        ends = [end_words(wire.start, wire.start_extension, default), end_words(wire.end, wire.end_extension, default)]
        return ' '.join([*head, *ends])
    sides = ' '.join(map(str, wire.rect))
    return f'{layers[wire.layer].name} {point(wire.point)} RECT ( {sides} )'


def end_words(place, extension, default):
    """Returns the words of an end of a segment."""
    return point(place) if extension == default else f'( {place[0]} {place[1]} {extension} )'
