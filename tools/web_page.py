"""The page in web/index.html: one file, with lefdef as a module of WebAssembly, the examples of the tutorial and the viewer of tools/view.

What it is made of stands in the folder `web`, and the viewer in `page` beside this file. The policy in the page names the sums of its one
script and of its style, so a browser runs no other script in it, and loads nothing.
"""
import base64
import hashlib
import json
import os
import re

TOP = os.path.dirname(os.path.dirname(os.path.abspath(__file__)))
VIEWER = (
    'loose_grid', 'block', 'dust', 'viewport', 'block_drawing', 'name_room', 'block_labels', 'viewer', 'controls', 'violation_list', 'search', 'switches', 'show_block')
PAGE = ('asker', 'texts', 'text_list', 'profile_choice', 'answer_view', 'page')
WORKER = (
    'columns', 'words', 'rects', 'polygons', 'generated_vias', 'lef', 'def', 'nets', 'wide_lef', 'wide_def', 'wide_nets', 'distances', 'missing_joints',
    'open_pieces', 'off_sites', 'marks', 'block_data', 'module', 'worker')
POLICY = "default-src 'none'; script-src 'sha256-{script}' 'wasm-unsafe-eval'; style-src 'sha256-{style}'; worker-src blob:; base-uri 'none'; form-action 'none'"
EXAMPLE = re.compile(r'^    \$ (?:.* && )?\./lefdef (\S+) (examples/\S+\.def) (examples/\S+\.lef)$', re.MULTILINE)


def read(*path):
    with open(os.path.join(TOP, *path), encoding='utf-8') as file:
        return file.read()


def script_of(*texts):
    """Returns the text of a script. One that ends its element, or begins a comment there, would not be read whole."""
    text = '\n'.join(["'use strict';", *texts])
    if re.search(r'</script|<!--', text, re.IGNORECASE):
        raise ValueError('a script has words that end it')
    return text


def examples():
    """Returns the commands that the tutorial runs on the examples, in its order, and the texts of their files."""
    commands = list(dict.fromkeys(EXAMPLE.findall(read('docs', 'TUTORIAL.md'))))
    return {'files': {name: read(name) for command in commands for name in command[1:]}, 'commands': commands}


def viewer():
    """Returns the elements of the viewer, which the pages of tools/view have alone."""
    return re.search(r'<main>.*</aside>', read('tools', 'page', 'view.html'), re.DOTALL)[0]


def sum_of(text):
    return base64.b64encode(hashlib.sha256(text.encode()).digest()).decode()


def page_text(module):
    """Returns the text of the page, with a module that is given as it was packed."""
    style = f'\n{read("tools", "page", "view.css")}\n{read("web", "page.css")}'
    script = script_of(*(read('tools', 'page', f'{name}.js') for name in VIEWER), *(read('web', f'{name}.js') for name in PAGE))
    parts = {
        'policy': POLICY.format(script=sum_of(script), style=sum_of(style)), 'style': style, 'script': script, 'version': read('VERSION').strip(),
        'viewer': viewer(), 'module': base64.b64encode(module).decode(), 'worker': script_of(*(read('web', f'{name}.js') for name in WORKER)),
        'examples': json.dumps(examples(), indent=1).replace('<', '\\u003c')}
    return re.sub(f'<!-- ({"|".join(parts)}) -->', lambda found: parts[found[1]], read('web', 'page.html'))
