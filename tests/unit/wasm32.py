"""The translation of the calls for WebAssembly (bindings/js/wasm32.py): an address keeps the place that it has on x86-64."""
import importlib.util
import unittest
from pathlib import Path

ROOT = Path(__file__).resolve().parent.parent.parent


def module():
    spec = importlib.util.spec_from_file_location('wasm32', ROOT / 'bindings' / 'js' / 'wasm32.py')
    made = importlib.util.module_from_spec(spec)
    spec.loader.exec_module(made)
    return made


WASM32 = module()


class Places(unittest.TestCase):

    def test_address_after_a_byte(self):
        self.assertEqual(WASM32.places('{ i8, ptr }'), [('i8', 0), ('ptr', 8)])

    def test_two_addresses_and_a_number(self):
        self.assertEqual(WASM32.places('{ ptr, ptr, i16 }'), [('ptr', 0), ('ptr', 8), ('i16', 16)])

    def test_struct_in_a_struct(self):
        with self.assertRaises(WASM32.Refused):
            WASM32.places('{ ptr, { i8, ptr } }')


class Lines(unittest.TestCase):

    def refused(self, line):
        with self.assertRaises(WASM32.Refused):
            WASM32.translated(line, 1)

    def kept(self, line):
        self.assertEqual(WASM32.translated(line, 1), [line])

    def test_read(self):
        self.assertEqual(WASM32.translated('  %r5 = load { i8, ptr }, ptr %r0, align 8', 1), [
            '  %r5.at0 = getelementptr i8, ptr %r0, i64 0',
            '  %r5.field0 = load i8, ptr %r5.at0, align 1',
            '  %r5.to0 = insertvalue { i8, ptr } poison, i8 %r5.field0, 0',
            '  %r5.at1 = getelementptr i8, ptr %r0, i64 8',
            '  %r5.field1 = load ptr, ptr %r5.at1, align 1',
            '  %r5 = insertvalue { i8, ptr } %r5.to0, ptr %r5.field1, 1'])

    def test_written(self):
        self.assertEqual(WASM32.translated('  store { i8, ptr } %r5, ptr %r0, align 8', 7), [
            '  %r5.written7.0 = extractvalue { i8, ptr } %r5, 0',
            '  %r5.written7.0.at = getelementptr i8, ptr %r0, i64 0',
            '  store i8 %r5.written7.0, ptr %r5.written7.0.at, align 1',
            '  %r5.written7.1 = extractvalue { i8, ptr } %r5, 1',
            '  %r5.written7.1.at = getelementptr i8, ptr %r0, i64 8',
            '  store ptr %r5.written7.1, ptr %r5.written7.1.at, align 1'])

    def test_without_an_address(self):
        self.kept('  %r5 = load { i8, i64 }, ptr %r0, align 8')
        self.kept('  %r5 = load ptr, ptr %r0, align 8')
        self.kept('  %r5 = alloca [16 x i8], align 8')
        self.kept('  %r5 = getelementptr i8, ptr %r1, i64 8')
        self.kept('  %r5 = call { ptr, i64 } @f(ptr %r1)')

    def test_difference_of_two_addresses(self):
        self.assertEqual(WASM32.translated('  %r8 = ptrtoaddr ptr %a1 to i64', 1), ['  %r8 = ptrtoint ptr %a1 to i64'])

    def test_refused(self):
        self.refused('  %r8 = ptrtoint ptr %a1 to i64')
        self.refused('  %r8 = inttoptr i64 %a1 to ptr')
        self.refused('  %r8 = getelementptr { i8, ptr }, ptr %a1, i64 1')
        self.refused('  %r8 = alloca [2 x ptr], align 8')
        self.refused('  %r8 = load [2 x ptr], ptr %a1, align 8')
        self.refused('  store { i8, ptr } zeroinitializer, ptr %a1, align 8')
        self.refused('@static.1 = private unnamed_addr constant { ptr, i64 } zeroinitializer')


if __name__ == '__main__':
    unittest.main()
