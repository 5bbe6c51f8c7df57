"""Makes a wheel of this folder for pip (PEP 517, PEP 427). It needs no package beside Python's own, and so no network, and writes nothing here.

    pip install tools/lefdef_text
"""
import base64
import hashlib
import os
import zipfile

NAME, TAG = 'lefdef_text', 'py3-none-any'
HERE = os.path.dirname(os.path.abspath(__file__))
METADATA = f"""Metadata-Version: 2.1
Name: {NAME}
Version: VERSION
Summary: LEF and DEF texts as records, and the answers of lefdef as objects
Requires-Python: >=3.8
"""
WHEEL = f'Wheel-Version: 1.0\nGenerator: {NAME}\nRoot-Is-Purelib: true\nTag: {TAG}\n'


def version():
    """Returns the version of the repository, or 0 for a folder that stands alone."""
    path = os.path.join(HERE, '..', '..', 'VERSION')
    if not os.path.isfile(path):
        return '0'
    with open(path, encoding='utf-8') as file:
        return file.read().strip()


def contents(info):
    """Returns the files of the wheel by their paths in it."""
    files = {}
    for name in sorted(os.listdir(HERE)):
        if name.endswith('.py') and name != os.path.basename(__file__):
            with open(os.path.join(HERE, name), 'rb') as file:
                files[f'{NAME}/{name}'] = file.read()
    files[f'{info}/METADATA'] = METADATA.replace('VERSION', version()).encode()
    files[f'{info}/WHEEL'] = WHEEL.encode()
    return files


def record_line(path, data):
    digest = base64.urlsafe_b64encode(hashlib.sha256(data).digest()).rstrip(b'=').decode()
    return f'{path},sha256={digest},{len(data)}\n'


def build_wheel(wheel_directory, config_settings=None, metadata_directory=None):
    info = f'{NAME}-{version()}.dist-info'
    name = f'{NAME}-{version()}-{TAG}.whl'
    files = contents(info)
    record = ''.join(record_line(path, data) for path, data in files.items()) + f'{info}/RECORD,,\n'
    with zipfile.ZipFile(os.path.join(wheel_directory, name), 'w', zipfile.ZIP_DEFLATED) as wheel:
        for path, data in {**files, f'{info}/RECORD': record.encode()}.items():
            wheel.writestr(path, data)
    return name
