"""Tests of tools/records: text to records and back, and what is said of a wrong text."""
import os
import random
import struct
import subprocess
import sys
import tempfile
import unittest

sys.dont_write_bytecode = True
ROOT = os.path.dirname(os.path.dirname(os.path.abspath(__file__)))
sys.path.insert(0, os.path.join(ROOT, 'tests'))
from confirm_runs import text_of, tool  # noqa: E402

records = tool()


def run(*words, data=b'', **more):
    return subprocess.run([sys.executable, os.path.join(ROOT, 'tools', 'records'), *words], input=data, **{'capture_output': True, **more})


def nearest_by_search(word):
    """The bits of the nearest float of 32 bits, found by trying neighbours, exactly."""
    from fractions import Fraction
    x = abs(Fraction(word))
    low, high = 0, 0x7f800000                       # the largest pattern whose value is not above x
    value = lambda n: Fraction(struct.unpack('<f', struct.pack('<I', n))[0]) if n < 0x7f800000 else Fraction(2) ** 128
    while high - low > 1:
        middle = (low + high) // 2
        if value(middle) <= x:
            low = middle
        else:
            high = middle
    below, above = x - value(low), value(high) - x
    n = low if below < above or (below == above and low % 2 == 0) else high
    return n | (0x80000000 if word.startswith('-') else 0)


class Writing(unittest.TestCase):
    def test_the_worked_example(self):
        data = records.to_records(text_of('worked'))
        self.assertEqual(data[:15], bytes.fromhex('0b000000 0100 0200 0100 40000000 00'))
        self.assertEqual(data[15:39], bytes.fromhex('14000000 0200 0000 0000803f 00000000 00000000 0000803f')[:24])
        self.assertTrue(data.endswith(bytes.fromhex('12000000 0500 0200 01000000 0100 0000803f 0000803f')))

    def test_every_kind(self):
        for text, expected in [
            ('geometry 8 4 256 1', '0b000000 0100 0800 0400 00010000 01'),
            ('basis 3 0x00000001', '08000000 0200 0300 01000000'),
            ('add 4294967295 -0', '0a000000 0300 ffffffff 00000080'),
            ('query 65535 4294967295 65535 nan inf -inf', '16000000 0500 ffff ffffffff ffff 0000c07f 0000807f 000080ff'),
            ('record 65535 00 Ff', '04000000 ffff 00ff'),
            ('record 3', '02000000 0300'),
            ('raw 01 02 03', '010203'),
            ('raw', ''),
            ('', ''),
            ('  # nothing', ''),
            ('add 1 # the rest is a comment 1 2 x', '06000000 0300 01000000'),
            ('add\t7   1.5\r', '0a000000 0300 07000000 0000c03f'),
            ('add ' + '0' * 5000 + '7', '06000000 0300 07000000'),
        ]:
            with self.subTest(text):
                self.assertEqual(records.to_records(text.encode()), bytes.fromhex(expected))

    def test_numbers_become_the_nearest(self):
        words = ['0', '-0', '1', '1.', '.5', '+2', '-3.25', '1e0', '0.1', '0.3', '16777217', '16777219', '1e-45', '7e-46', '0.70064923216240853546186479164495807e-45',
                 '1.17549435e-38', '1.17549421e-38', '3.4028235e38', '3.4028235677973365e38', '1e-400', '123456789.123456789', '5e-324']
        r = random.Random(5)
        words += [f'{r.uniform(-10, 10)}e{r.randint(-46, 37)}' for _ in range(200)]
        # halfway between two neighbours, and a little beside it: a float of 64 bits in between would round twice
        for n in [0x3f800000, 0x3f800001, 0x00000001, 0x00800000, 0x4b000001]:
            a, b = (struct.unpack('<f', struct.pack('<I', m))[0] for m in (n, n + 1))
            from fractions import Fraction
            half = (Fraction(a) + Fraction(b)) / 2
            for shift in (0, 1, -1):
                x = half + shift * Fraction(1, 10 ** 90)
                digits = str(x.numerator * 10 ** 160 // x.denominator).rjust(161, '0')
                words.append(digits[:-160] + '.' + digits[-160:])
        for word in words:
            with self.subTest(word):
                self.assertEqual(records.component(word), nearest_by_search(word))

    def test_wrong_texts_are_told_by_their_line(self):
        for text, line, part in [
            ('geometry 2 1 64', 1, 'D, N, C, MODE'),
            ('geometry 2 1 64 0 0', 1, 'too many'),
            ('geometry 2 1 64 256', 1, '0 to 255'),
            ('geometry two 1 64 0', 1, '`two`'),
            ('geometry -1 1 64 0', 1, '`-1`'),
            ('geometry 65536 1 64 0', 1, '0 to 65535'),
            ('add', 1, 'the id'),
            ('add ' + '9' * 5000, 1, 'the id is a whole number'),
            ('\n\nadd 4294967296 1', 3, '4294967295'),
            ('# fine\nadd 1 2 x', 2, '`x`'),
            ('add 1 1e39', 1, 'too large'),
            ('add 1 3.4028236e38', 1, 'too large'),
            ('add 1 0x123456789', 1, '`0x123456789`'),
            ('add 1 1_000', 1, '`1_000`'),
            ('add 1 1e999999999', 1, 'too large'),
            ('add 1 -1e1001', 1, '`-1e1001` is too large for 32 bits'),
            ('add 1 1e+' + '9' * 5000, 1, 'too large'),
            ('add 1 ' + '9' * 5000, 1, 'too large'),
            ('add 1 -nan', 1, '`-nan`'),
            ('add 1 infinity', 1, '`infinity`'),
            ('add 1 1e', 1, '`1e`'),
            ('add 1 0x1p3', 1, '`0x1p3`'),
            ('add 1 ' + 'x' * 5000, 1, '`' + 'x' * 40 + '..`'),
            ('add 1 \x1b[31m', 1, r'`\x1b[31m`'),
            ('\ufeff\nadd', 2, 'the id'),
            ('add ٣ 1', 1, '`٣`'),
            ('query 1 1', 1, 'K, SEARCH_K, SPILL'),
            ('basis', 1, 'basis number'),
            ('record', 1, 'the kind'),
            ('record 3 0', 1, 'two hexadecimal digits'),
            ('raw xx', 1, '`xx`'),
            ('Add 1 2', 1, '`Add`'),
            ('find 1 2', 1, '`find`'),
        ]:
            with self.subTest(text[:60]):
                with self.assertRaises(records.Wrong) as told:
                    records.to_records(text.encode())
                said = str(told.exception)
                self.assertTrue(said.startswith(f'line {line}: '), said)
                self.assertIn(part, said)
                self.assertNotIn('\n', said)
                self.assertLess(len(said), 150)

    def test_a_wrong_text_is_told_and_nothing_written(self):
        ran = run('to-records', data=b'raw 01\n# fine\nadd 1 2 x')
        self.assertEqual((ran.returncode, ran.stdout), (1, b''))
        self.assertEqual(ran.stderr.decode(),
                         'records: standard input, line 3: a component is a number, its bits as 0x3f800000, nan, inf or -inf, not `x`.\n')

    def test_numbers_of_any_length(self):
        for word, bits in [
            ('1e-1001', 0), ('-1e-1001', 0x80000000), ('1e-' + '9' * 5000, 0), ('0e1001', 0), ('-0e' + '9' * 5000, 0x80000000),
            ('1e01', 0x41200000), ('1' + '0' * 1001 + 'e-1001', 0x3f800000), ('0.' + '0' * 1000 + '1e1001', 0x3f800000),
            ('0' * 5000 + '2', 0x40000000), ('2.' + '0' * 5000, 0x40000000), ('.' + '0' * 5000, 0),
            # halfway between 1 and its neighbour goes to the even one, 1; a digit far behind makes it more than half
            ('1.000000059604644775390625', 0x3f800000), ('1.000000059604644775390625' + '0' * 5000, 0x3f800000),
            ('1.000000059604644775390625' + '0' * 5000 + '1', 0x3f800001), ('1.000000059604644775390624' + '9' * 5000, 0x3f800000),
            # so does a digit behind half of the smallest number, which has 105 digits
            (str(5 ** 150) + 'e-150', 0), (str(5 ** 150) + '0' * 5000 + '1e-5151', 1),
            # the largest number, and half a step above it
            ('340282346638528859811704183484516925440', 0x7f7fffff), ('340282356779733661637539395458142568447.' + '9' * 5000, 0x7f7fffff),
        ]:
            with self.subTest(word[:60]):
                self.assertEqual(records.component(word), bits)
        with self.assertRaisesRegex(records.Wrong, 'too large'):
            records.component('340282356779733661637539395458142568448')

    def test_words_for_what_is_no_number(self):
        for word, bits in [('nan', 0x7fc00000), ('NaN', 0x7fc00000), ('inf', 0x7f800000), ('+inf', 0x7f800000), ('-Inf', 0xff800000)]:
            self.assertEqual(records.component(word), bits)

    def test_a_byte_order_mark_is_passed_over(self):
        mark = b'\xef\xbb\xbf'
        plain = records.to_records(text_of('worked'))
        self.assertEqual(records.to_records(mark + text_of('worked')), plain)
        self.assertEqual(records.to_records(mark + b'raw 01'), b'\x01')
        self.assertEqual(records.to_records(mark), b'')
        with self.assertRaisesRegex(records.Wrong, 'line 2: '):
            records.to_records(b'raw 01\n' + mark + b'raw 01')     # at the start alone
        with self.assertRaisesRegex(records.Wrong, 'line 2: this is no text'):
            records.to_records(mark + b'raw 01\n\xff')

    def test_bytes_that_are_no_text(self):
        ran = run('to-records', data=b'add 1 2\n\xff\xfe\n')
        self.assertEqual(ran.returncode, 1)
        self.assertIn('line 2: this is no text', ran.stderr.decode())


class Reading(unittest.TestCase):
    def test_the_worked_example_comes_back(self):
        text = records.to_text(records.to_records(text_of('worked'))).decode()
        self.assertEqual(text.splitlines()[:3], ['geometry 2 1 64 0', 'basis 0 1 0 0 1', 'add 1 2 0'])
        self.assertEqual(text.splitlines()[-1], 'query 2 1 1 1 1')

    def test_all_runs_come_back_byte_for_byte(self):
        for name in ('worked', 'mode0', 'mode1'):
            data = records.to_records(text_of(name))
            self.assertEqual(records.to_records(records.to_text(data)), data)

    def test_any_bytes_come_back(self):
        r = random.Random(7)
        for _ in range(400):
            parts = []
            for _ in range(r.randint(0, 5)):
                body = bytes(r.choice([0, 0, 1, 63, 127, 128, 255]) for _ in range(r.randint(0, 40)))
                parts.append(records.record(r.choice([1, 2, 3, 4, 5, 6, 600]).to_bytes(2, 'little'), body))
            parts.append(bytes(r.randrange(256) for _ in range(r.choice([0, 0, 1, 3, 4, 9, 100]))))
            data = b''.join(parts)
            text = records.to_text(data)
            self.assertEqual(records.to_records(text), data)
            self.assertEqual(records.to_text(records.to_records(text)), text)

    def test_any_bits_come_back(self):
        r = random.Random(8)
        for n in [0, 1, 0x80000000, 0x7f7fffff, 0x7f800000, 0xff800000, 0x7fc00000, 0x7f800001, 0xffc00000, 0x3dcccccd] + [r.getrandbits(32) for _ in range(3000)]:
            self.assertEqual(records.component(records.shown(n)), n, hex(n))

    def test_numbers_are_short(self):
        for word in ['0', '-0', '1', '0.1', '-2.5', '1e-45', '3.4028235e+38', 'nan', 'inf', '-inf']:
            self.assertEqual(records.shown(records.component(word)), word)


class Command(unittest.TestCase):
    def test_wrong_use(self):
        for words in [(), ('to-bytes',), ('to-text', 'a', 'b'), ('--text',), ('to-text', '--text'), ('to-text', ''), ('to-text', '--', ''),
                      ('run',), ('run', '-'), ('run', '--all', '-', 'cat')]:
            ran = run(*words)
            self.assertEqual((ran.returncode, ran.stdout), (2, b''), words)
            self.assertEqual(ran.stderr.decode().count('\n'), 1)
        self.assertIn('there is no option --text', run('to-text', '--text').stderr.decode())
        self.assertIn('is empty', run('to-text', '').stderr.decode())

    def test_help(self):
        ran = run('--help')
        self.assertEqual(ran.returncode, 0)
        self.assertIn(b'geometry D N C MODE', ran.stdout)

    def test_missing_file(self):
        ran = run('to-records', '/no/such/file')
        self.assertEqual(ran.returncode, 1)
        self.assertEqual(ran.stderr.decode(), 'records: cannot read /no/such/file: No such file or directory.\n')

    def test_two_dashes_end_the_options(self):
        with tempfile.TemporaryDirectory() as folder:
            with open(os.path.join(folder, '-x'), 'wb') as f:
                f.write(b'raw 01 02')
            self.assertEqual(run('to-records', '--', '-x', cwd=folder).stdout, b'\x01\x02')
            self.assertEqual(run('to-records', '--', '-', data=b'raw 03', cwd=folder).stdout, b'\x03')
            self.assertEqual(run('to-records', '--', data=b'raw 04').stdout, b'\x04')
            self.assertIn('cannot read --help: ', run('to-records', '--', '--help', cwd=folder).stderr.decode())

    def test_an_output_that_is_full(self):
        with open('/dev/full', 'wb') as full:
            for words in (['to-records'], ['to-text'], ['--help']):
                ran = run(*words, data=b'raw 01', stdout=full, capture_output=False, stderr=subprocess.PIPE)
                self.assertEqual((ran.returncode, ran.stderr.decode()), (1, 'records: standard output cannot be written: No space left on device.\n'))

    def test_closed_files(self):
        def closing(which, *words):
            command = ['sh', '-c', f'exec "$@" {which}', 'sh', sys.executable, os.path.join(ROOT, 'tools', 'records'), *words]
            return subprocess.run(command, input=b'raw 01', capture_output=True)

        ran = closing('>&-', 'to-records')
        self.assertEqual((ran.returncode, ran.stderr.decode()), (1, 'records: standard output is closed.\n'))
        ran = closing('<&-', 'to-records')
        self.assertEqual((ran.returncode, ran.stdout, ran.stderr.decode()), (1, b'', 'records: standard input is closed.\n'))
        ran = closing('2>&-', 'to-records', '/no/such/file')
        self.assertEqual((ran.returncode, ran.stdout, ran.stderr), (1, b'', b''))

    def test_a_reader_that_leaves(self):
        out, into = os.pipe()
        os.close(out)
        ran = run('to-records', data=b'raw 01', stdout=into, capture_output=False, stderr=subprocess.PIPE)
        os.close(into)
        self.assertEqual((ran.returncode, ran.stderr), (141, b''))

    def test_what_cannot_be_read(self):
        self.assertEqual(run('to-text', '/').stderr.decode(), 'records: cannot read /: Is a directory.\n')
        self.assertEqual(run('to-text', '/proc/self/mem').stderr.decode(), 'records: cannot read /proc/self/mem: Input/output error.\n')

    def test_a_program_that_is_not_there(self):
        ran = run('run', '-', '/no/such/program', data=b'raw 01')
        self.assertEqual((ran.returncode, ran.stderr.decode()), (1, 'search: cannot run /no/such/program: No such file or directory.\n'))

    def test_what_is_taken_for_a_text(self):
        for name, head, text in [
            ('-', b'', True), ('-', b'raw', True), ('-', b'#\n', True), ('-', b'\r\n\t#', True), ('-', b'\xef\xbb\xbf#', True), ('-', b'raw \0', True),
            ('a.txt', b'\x0b\0\0\0', True), ('-', b'\x0b\0\0\0\1\0', False), ('-', b'\x61\1\0\0', False), ('-', b'\0\2\0\0', False),
            ('-', b'\x0b', False), ('a.text', b'a\0', False),
        ]:
            self.assertEqual(records.is_text(name, head), text, (name, head))
        # every length that a record can have
        self.assertFalse([n for n in range(2, 513) if records.is_text('-', n.to_bytes(4, 'little'))])

    def test_a_file_and_standard_input(self):
        data = text_of('worked')
        with tempfile.NamedTemporaryFile() as f:
            f.write(data)
            f.flush()
            self.assertEqual(run('to-records', f.name).stdout, run('to-records', '-', data=data).stdout)


if __name__ == '__main__':
    unittest.main()
