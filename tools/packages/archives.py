"""Archives by the standard library alone, the same bytes each time: sorted names, one time, root as owner, modes 644 and 755."""
import hashlib
import io
import tarfile
import time
import zipfile
import zlib
from typing import NamedTuple


class File(NamedTuple):
    data: bytes = b''
    runs: bool = False
    link: str = ''  # the name to which it is a symbolic link

    @property
    def mode(self):
        return 0o755 if self.runs else 0o644


# Some files below a folder.
def below(folder, files):
    return {f'{folder}/{name}': file for name, file in files.items()}


# The lines of sha256sum.
def sums(files):
    return ''.join(f'{hashlib.sha256(files[name]).hexdigest()}  {name}\n' for name in sorted(files)).encode()


# A gzip file without a name, a time or a system: those of the module gzip depend on Python's version.
def gz(data):
    packer = zlib.compressobj(9, zlib.DEFLATED, -15)
    packed = packer.compress(data) + packer.flush()
    ends = zlib.crc32(data).to_bytes(4, 'little') + (len(data) & 0xffffffff).to_bytes(4, 'little')
    return b'\x1f\x8b\x08\0\0\0\0\0\x02\xff' + packed + ends


# The folders of some names, each before what is in it.
def folders(names):
    found = {'/'.join(parts[:count]) for parts in (name.split('/') for name in names) for count in range(1, len(parts))}
    return sorted(found)


def member(name, when, kind, mode, link=''):
    info = tarfile.TarInfo(name)
    info.mtime, info.type, info.mode, info.linkname = when, kind, mode, link
    info.uname = info.gname = 'root'
    return info


# A tar archive; the folders of its files are members too, as dpkg wants them.
def tar(files, when):
    out = io.BytesIO()
    with tarfile.open(fileobj=out, mode='w', format=tarfile.GNU_FORMAT) as archive:
        for name in folders(files):
            archive.addfile(member(name, when, tarfile.DIRTYPE, 0o755))
        for name in sorted(files):
            file = files[name]
            info = member(name, when, tarfile.SYMTYPE if file.link else tarfile.REGTYPE, 0o777 if file.link else file.mode, file.link)
            info.size = len(file.data)
            archive.addfile(info, io.BytesIO(file.data))
    return gz(out.getvalue())


# An archive of the form of ar, its members in the order that is given.
def ar(members, when):
    out = b'!<arch>\n'
    for name, data in members:
        out += f'{name:<16}{when:<12}{0:<6}{0:<6}{"100644":<8}{len(data):<10}`\n'.encode() + data + b'\n' * (len(data) % 2)
    return out


def zipped(files, when):
    out = io.BytesIO()
    with zipfile.ZipFile(out, 'w') as archive:
        for name in sorted(files):
            info = zipfile.ZipInfo(name, time.gmtime(when)[:6])
            info.create_system, info.external_attr = 3, (0o100000 | files[name].mode) << 16
            archive.writestr(info, files[name].data, zipfile.ZIP_DEFLATED, 9)
    return out.getvalue()
