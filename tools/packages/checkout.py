"""The checkout of which a release is made: its commit, the gate's mark of it (tools/passed), and what target/ has of it."""
import hashlib
import re
import subprocess

PROGRAMS = ('terms', 'compose', 'decompose', 'gateway', 'confirm', 'deliver', 'reconcile', 'query')
ARCHIVE = 'staticlib/libscullpouch.a'
WASM = 'wasm/scullpouch.wasm'
# Beside the archive, in this order, what bindings/js/build sums to see whether its module is that of the archive.
WASM_INPUTS = ('bindings/js/build', 'bindings/js/kit', 'bindings/js/section.py', 'bindings/js/wasm32.py')


class Stop(Exception):
    """What keeps a release from being made, in words."""


class Mark:
    """The gate's mark: the commit that has passed, the kit, the lines about edits, the sums of what was built."""

    def __init__(self, text):
        self.commit = ''.join(re.findall(r'^commit (\w+)$', text, re.M))
        self.kit = ''.join(re.findall(r'^kit (.+)$', text, re.M))
        self.edits = re.findall(r'^rt: must-fail ([^:]+?)(?:\.edit)?: (.*)$', text, re.M)
        self.sums = {name: digest for digest, name in re.findall(r'^([0-9a-f]{64})  (.+)$', text, re.M)}


class Checkout:

    def __init__(self, root, unpassed):
        self.root = root
        if self.git('status', '--porcelain'):
            raise Stop('the checkout is not clean: commit, or put away, what git status names')
        self.commit = self.git('rev-parse', 'HEAD').strip()
        self.time = int(self.git('log', '-1', '--format=%ct'))
        self.mark = self.mark_of_commit(unpassed)
        self.check_wasm()

    @property
    def version(self):
        return self.text('VERSION').strip()

    def git(self, *words):
        ran = subprocess.run(('git', *words), cwd=self.root, capture_output=True, text=True)
        if ran.returncode != 0:
            raise Stop(f'git {words[0]}: {ran.stderr.strip()}')
        return ran.stdout

    def read(self, name):
        return (self.root / name).read_bytes()

    def text(self, name):
        return self.read(name).decode('utf-8')

    # The files of the commit below some names.
    def files(self, *names):
        return self.git('ls-files', '-z', '--', *names).split('\0')[:-1]

    # The mark, or None where it is not asked for.
    def mark_of_commit(self, unpassed):
        if unpassed:
            return None
        path = self.root / 'target' / 'passed'
        mark = Mark(path.read_text(encoding='utf-8') if path.is_file() else '')
        if mark.commit != self.commit:
            raise Stop(f'the gate has not passed on commit {self.commit} (target/passed): run .ci/run first, or say --unpassed')
        return mark

    @property
    def verdict(self):
        return 'the gate has passed' if self.mark else 'the gate has not passed'

    # The kit by which the gate has passed, or else the one that the checkout is pinned to.
    @property
    def kit(self):
        return self.mark.kit if self.mark else self.text('bindings/js/kit').strip()

    # A file of target/, which is the one that the gate has tested where it has passed.
    def built(self, name):
        path = self.root / 'target' / name
        if not path.is_file():
            raise Stop(f'target/{name} is missing: .ci/run makes it')
        data = path.read_bytes()
        if self.mark and self.mark.sums.get(name) != hashlib.sha256(data).hexdigest():
            raise Stop(f'target/{name} is not the one that the gate has tested: run .ci/run again')
        return data

    @property
    def shared_object(self):
        return f'libscullpouch.so.{self.version.split(".")[0]}'

    # The WebAssembly module is that of the archive, by the sum that bindings/js/build left.
    def check_wasm(self):
        self.built(WASM)
        inputs = b''.join((self.built(ARCHIVE), *map(self.read, WASM_INPUTS)))
        if self.built_text('wasm/inputs') != hashlib.sha256(inputs).hexdigest():
            raise Stop(f'target/{WASM} is not that of target/{ARCHIVE}: run bindings/js/build')

    def built_text(self, name):
        return self.built(name).decode('utf-8').strip()


class Folder(Checkout):
    """A checkout as it is, with changes or without, or a folder that is none: what bindings/install installs of it."""

    def __init__(self, root, kit):
        self.root, self.mark, self.proved_by = root, None, kit
        self.commit = self.asked('rev-parse', 'HEAD').strip() or 'none'
        if self.asked('status', '--porcelain'):
            self.commit += ' with changes'

    # What git says; nothing where there is none, or no checkout.
    def asked(self, *words):
        try:
            return self.git(*words)
        except (OSError, Stop):
            return ''

    # The files that are there, but for what was built.
    def files(self, *names):
        found = (path.relative_to(self.root) for name in names for path in (self.root / name).rglob('*') if path.is_file())
        return sorted(str(path) for path in found if 'target' not in path.parts)

    @property
    def verdict(self):
        return 'by bindings/install'

    @property
    def kit(self):
        return self.proved_by
