"""Installs below a prefix what target/ has, by the rule of the packages: the last step of bindings/install.

PYTHONPATH=tools python3 -m packages.prefix PREFIX KIT
"""
import os
import shutil
import sys
import tempfile
from pathlib import Path

from .archives import File, below
from .checkout import Folder, Stop
from .contents import Built, movable, python_module, rust_crate

ROOT = Path(__file__).resolve().parent.parent.parent
UP = '../../../../lib/'  # to the libraries from the folders of Python's module and of the crate's archive


# The module and the crate find the library by a link beside them.
def files(built):
    shared, archive = File(link=UP + built.checkout.shared_object), File(link=UP + 'libscullpouch.a')
    return {**movable(built), **below('share/scullpouch/python/scullpouch', python_module(built, shared)),
            **below('share/scullpouch/rust', rust_crate(built, archive))}


# A folder that everyone may read, whatever the umask.
def folder(path):
    if not path.is_dir():
        folder(path.parent)
        path.mkdir()
        path.chmod(0o755)


# A file takes its name when it is whole: what runs, or is read, meanwhile stays as it was.
def put(path, file):
    folder(path.parent)
    part = Path(tempfile.mkdtemp(dir=path.parent)) / 'file'
    try:
        if file.link:
            part.symlink_to(file.link)
        else:
            part.write_bytes(file.data)
            part.chmod(file.mode)
        os.replace(part, path)
    finally:
        shutil.rmtree(part.parent)


def main(prefix, kit):
    try:
        for name, file in files(Built(Folder(ROOT, kit))).items():
            put(Path(prefix, name), file)
    except (Stop, OSError) as stop:
        print(f'bindings: {stop}', file=sys.stderr)
        return 1
    return 0


if __name__ == '__main__':
    sys.exit(main(*sys.argv[1:]))
