"""Tests of the search program and of the script ./search: the examples, inputs of every sort, outputs that fail, wrong use, explanations, the
building with a made-up toolchain, and drawn runs in pieces.

They need the toolchain (rt): the script builds the program where that was not done yet. What is about the program alone is run without the script.
"""
import contextlib
import os
import platform
import pty
import random
import re
import select
import shutil
import signal
import socket
import struct
import subprocess
import sys
import tempfile
import threading
import tty
import unittest

sys.dont_write_bytecode = True
ROOT = os.path.dirname(os.path.dirname(os.path.abspath(__file__)))
sys.path.insert(0, os.path.join(ROOT, 'tests'))
import program_model  # noqa: E402
from confirm_runs import RUNS, text_of, tool  # noqa: E402

records = tool()
SCRIPT = os.path.join(ROOT, 'search')


def search(*words, data=b'', **more):
    return subprocess.run([SCRIPT, *words], input=data, capture_output=True, **more)


def program():
    """The words that run the program itself."""
    words = [os.path.join(ROOT, 'crates', 'search', 'out', 'search')]
    if platform.machine() != 'x86_64':
        words.insert(0, 'qemu-x86_64')
    return words


def ran_on(data):
    """What the program prints for the data, handed over at once."""
    return subprocess.run(program(), input=data, capture_output=True).stdout


def in_pieces(pieces):
    """What the program prints if its input comes in these pieces, each flushed by itself."""
    with subprocess.Popen(program(), stdin=subprocess.PIPE, stdout=subprocess.PIPE) as p:
        try:
            for piece in pieces:
                p.stdin.write(piece)
                p.stdin.flush()
        except BrokenPipeError:
            pass                                    # a bad frame stops the program
        try:
            p.stdin.close()
        except BrokenPipeError:
            pass
        return p.stdout.read()


def cut(r, data, most):
    at = 0
    while at < len(data):
        n = r.randint(1, most)
        yield data[at:at + n]
        at += n


def drawn(r, many):
    """A run of so many records: most are good, some are refused, a few are garbage."""
    d, n, cap, mode = r.randint(1, 8), r.randint(1, 4), 64 * r.randint(1, 4), r.randint(0, 1)

    def floats(count):
        def one():
            if r.random() < 0.01:
                return r.choice([0x7fc00000, 0x7f800000, 0xff800000, 0x7f7fffff, 1, r.getrandbits(32)])
            return struct.unpack('<I', struct.pack('<f', r.randint(-3, 3) / r.choice([1, 1, 2, 3])))[0]
        return b''.join(one().to_bytes(4, 'little') for _ in range(count))

    def kind(k, body):
        return records.record(k.to_bytes(2, 'little'), body)

    def geometry():
        return kind(1, struct.pack('<HHIB', d, n, cap, mode))

    def basis():
        return kind(2, struct.pack('<H', r.randint(0, n - 1) if r.random() < 0.9 else r.randint(0, 9)) + floats(d * d))

    parts = [r.choice([geometry, basis])() for _ in range(r.randint(0, 2))] + [geometry()] + [basis() for _ in range(r.randint(0, 2 * n))]
    for _ in range(many):
        x = r.random()
        if x < 0.55:
            parts.append(kind(3, struct.pack('<I', r.randrange(cap) if r.random() < 0.98 else r.getrandbits(32)) + floats(d)))
        elif x < 0.9:
            parts.append(kind(5, struct.pack('<HIH', r.choice([0, 1, 2, 5, 20, 256, 300]), r.choice([0, 1, 1, 2, 3, 8, 70]), r.choice([0, 0, 1, 2, 7, 9])) + floats(d)))
        elif x < 0.95:
            parts.append(kind(r.choice([1, 2, 3, 4, 5, 6, 300]), bytes(r.randrange(256) for _ in range(r.choice([0, 1, 8, 9, 40])))))
        else:
            parts.append(basis())
    if r.random() < 0.3:
        parts.append(bytes(r.randrange(256) for _ in range(r.randint(1, 20))))
    return b''.join(parts)


class Runs(unittest.TestCase):
    def test_the_gates_files_are_those_of_the_texts_and_the_model(self):
        for name, crate in RUNS.items():
            data = records.to_records(text_of(name))
            for file, content in (('stdin', data), ('stdout', program_model.printed(data).encode())):
                with open(os.path.join(ROOT, 'crates', crate, file), 'rb') as f:
                    self.assertEqual(f.read(), content, (crate, file))

    def test_every_refusal_is_reached(self):
        lines = b''.join(program_model.printed(records.to_records(text_of(name))).encode() for name in RUNS).split(b'\n')
        for number in (1, 2, 3, 4, 5, 6, 7, 8, 15):
            self.assertIn(b'refused %d' % number, lines)


def needs_rt(cls):
    return unittest.skipUnless(shutil.which('rt'), 'the toolchain is not on the path')(cls)


def listing():
    with open(os.path.join(ROOT, 'crates', 'search', 'stdout'), 'rb') as f:
        return f.read()


def closing(fd, *words, **more):
    """The script run with one of its standard files closed."""
    return subprocess.run(['sh', '-c', f'exec "$@" {fd}{"<" if fd == 0 else ">"}&-', 'sh', SCRIPT, *words], capture_output=True, **more)


class Sentences(unittest.TestCase):
    def told(self, ran, status, part):
        """A run that failed: nothing printed, one sentence, its status."""
        said = ran.stderr.decode()
        self.assertEqual((ran.returncode, ran.stdout or b''), (status, b''), said)
        self.assertIn(part, said)
        self.assertTrue(said.startswith('search: ') and said.endswith('.\n'), said)
        self.assertEqual(said.count('\n'), 1, said)


@needs_rt
class Script(Sentences):
    def test_the_examples_print_what_they_say(self):
        names = sorted(name for name in os.listdir(os.path.join(ROOT, 'examples')) if name.endswith('.txt'))
        self.assertIn('farthest.txt', names)
        for name in names:
            with open(os.path.join(ROOT, 'examples', name), 'rb') as f:
                text = f.read()
            said = b''.join(line[4:] for line in text.splitlines(True) if line.startswith(b'#   '))
            self.assertIn(b'found', said)
            ran = search(os.path.join('examples', name), cwd=ROOT)
            self.assertEqual((ran.returncode, ran.stdout, ran.stderr), (0, said, b''), name)
            self.assertEqual(said.decode(), program_model.printed(records.to_records(text)), name)

    def test_the_worked_example(self):
        ran = search('examples/first.txt', cwd=ROOT)
        self.assertEqual((ran.returncode, ran.stdout), (0, listing()))

    def test_text_and_records_from_files_and_standard_input(self):
        text = text_of('worked')
        data = records.to_records(text)
        with tempfile.TemporaryDirectory() as folder:
            for name, content in [('a.txt', text), ('plain', text), ('-', b'marked\n'), ('--text', b'\xef\xbb\xbf' + text), ('with blank', data)]:
                with open(os.path.join(folder, name), 'wb') as f:
                    f.write(content)
                if name != '-':
                    self.assertEqual(search('--', name, cwd=folder).stdout, listing(), name)
            with open(os.path.join(folder, 'with blank'), 'rb') as f:
                self.assertEqual(subprocess.run([SCRIPT], stdin=f, capture_output=True).stdout, listing())
            self.assertEqual(search('-', data=data, cwd=folder).stdout, listing())
        for words, given in [((), data), ((), text), ((), b'\n' + text), (('--text',), text), (('--records', '--'), data)]:
            self.assertEqual(search(*words, data=given).stdout, listing(), (words, given[:9]))

    def test_an_option_overrules_the_guess(self):
        self.assertEqual(search('--records', data=text_of('worked')).stdout, b'refused 15\n')
        self.told(search('--text', data=records.to_records(text_of('worked'))), 1, 'standard input, line 1: ')
        with tempfile.NamedTemporaryFile(suffix='.txt') as f:
            f.write(records.to_records(text_of('worked')))
            f.flush()
            self.told(search(f.name), 1, f'{f.name}, line 1: ')
            self.assertEqual(search('--records', f.name).stdout, listing())

    def test_a_pipe_as_file(self):
        text = text_of('worked')
        data = records.to_records(text)
        for given in (text, data):
            self.assertEqual(search('/dev/stdin', data=given).stdout, listing())
            out, into = os.pipe()
            os.write(into, given)                   # fewer bytes than a pipe holds
            os.close(into)
            self.assertEqual(search(f'/dev/fd/{out}', pass_fds=(out,)).stdout, listing())
            os.close(out)
            with tempfile.TemporaryDirectory() as folder:
                path = os.path.join(folder, 'fifo')
                os.mkfifo(path)

                def write():
                    with open(path, 'wb') as f:
                        f.write(given)
                writing = threading.Thread(target=write)
                writing.start()
                ran = search(path, timeout=60)
                writing.join()
                self.assertEqual((ran.returncode, ran.stdout), (0, listing()), ran.stderr)

    def test_records_are_answered_as_they_come(self):
        data = records.to_records(text_of('worked'))
        for words in ((), ('--explain',)):
            with subprocess.Popen([SCRIPT, *words], stdin=subprocess.PIPE, stdout=subprocess.PIPE, stderr=subprocess.PIPE, bufsize=0) as p:
                def answer():
                    self.assertTrue(select.select([p.stdout], [], [], 60)[0], 'no answer')
                    return os.read(p.stdout.fileno(), 1000)
                p.stdin.write(data[:3])
                p.stdin.write(data[3:15])
                self.assertEqual(answer(), b'geometry 2 1 64 0\n')
                p.stdin.write(data[15:37])
                p.stdin.write(data[37:39])
                self.assertEqual(answer(), b'basis 0\n')
                # a bad frame ends the run, though the input stays open
                p.stdin.write(b'\0\0\0\0')
                self.assertEqual(answer(), b'refused 15\n')
                self.assertEqual(p.wait(timeout=60), 0)
                self.assertEqual(b'refused 15: ' in p.stderr.read(), bool(words))

    def test_an_interrupt(self):
        with subprocess.Popen([SCRIPT], stdin=subprocess.PIPE, stdout=subprocess.PIPE, stderr=subprocess.PIPE) as p:
            p.stdin.write(records.to_records(b'geometry 2 1 64 0'))
            p.stdin.flush()
            self.assertEqual(p.stdout.readline(), b'geometry 2 1 64 0\n')
            p.send_signal(signal.SIGINT)
            self.assertEqual((p.wait(timeout=60), p.stderr.read()), (130, b''))

    def test_empty_input_prints_nothing(self):
        with tempfile.NamedTemporaryFile() as f:
            ran = search(f.name)
            self.assertEqual((ran.returncode, ran.stdout, ran.stderr), (0, b'', b''))
        self.assertEqual(search().stdout, b'')

    def test_an_output_that_is_full(self):
        data = records.to_records(text_of('worked'))
        with open('/dev/full', 'wb') as full:
            for words, given in [((), data), ((), text_of('worked')), (('--explain',), data), (('--help',), b''), (('--version',), b'')]:
                ran = subprocess.run([SCRIPT, *words], input=given, stdout=full, stderr=subprocess.PIPE)
                self.told(ran, 1, 'standard output cannot be written: No space left on device')

    def test_a_closed_output(self):
        for words in (['examples/first.txt'], ['--help']):
            self.told(closing(1, *words, cwd=ROOT), 1, 'standard output is closed')

    def test_a_closed_standard_error_keeps_sentences_off_the_output(self):
        ran = closing(2, 'no-such-file')
        self.assertEqual((ran.returncode, ran.stdout, ran.stderr), (1, b'', b''))
        ran = closing(2, '--explain', 'examples/first.txt', cwd=ROOT)
        self.assertEqual((ran.returncode, ran.stdout, ran.stderr), (0, listing(), b''))

    def test_a_reader_that_leaves(self):
        data = records.record(b'\x09\x00', b'') * 100000
        for words in ((), ('--explain',), ('--help',)):
            with subprocess.Popen([SCRIPT, *words], stdin=subprocess.PIPE, stdout=subprocess.PIPE, stderr=subprocess.PIPE) as p:
                if words == ('--help',):
                    p.stdout.close()
                writing = threading.Thread(target=lambda: self.assertIsNone(feed(p, data)))
                writing.start()
                if words != ('--help',):
                    self.assertEqual(p.stdout.readline(), b'refused 15\n')
                    p.stdout.close()
                said = p.stderr.read()
                self.assertEqual(p.wait(timeout=60), 141)
                writing.join()
                self.assertNotIn(b'Broken', said)
                self.assertNotIn(b'Traceback', said)
                if words != ('--explain',):
                    self.assertEqual(said, b'')

    def test_what_is_mistyped_is_told_in_a_sentence(self):
        with tempfile.NamedTemporaryFile(suffix='.txt') as f:
            f.write(b'geometry 2 1 64 0\nbasis 0 1 0 0 one\n')
            f.flush()
            for words, status, part in [
                (('no-such-file',), 1, 'there is no file no-such-file'),
                (('/',), 1, '/ is a folder'),
                (('',), 2, 'the name of the file is empty'),
                (('--', ''), 2, 'the name of the file is empty'),
                (('--tex',), 2, 'there is no option --tex'),
                (('--', '--text'), 1, 'there is no file --text'),
                (('a', 'b'), 2, 'one file at a time: a, or b?'),
                ((f.name,), 1, f'{f.name}, line 2: '),
                ((f.name + '/x',), 1, 'there is no file'),
            ]:
                self.told(search(*words), status, part)

    def test_inputs_that_cannot_be_read(self):
        folder = os.open('/', os.O_RDONLY)
        self.told(subprocess.run([SCRIPT], stdin=folder, capture_output=True), 1, 'standard input is a folder')
        os.close(folder)
        self.told(closing(0), 1, 'standard input is closed')
        # this file opens, but no byte can be read at its start
        self.told(search('/proc/self/mem'), 1, 'cannot read /proc/self/mem: Input/output error')
        self.told(search('--records', '/proc/self/mem'), 1, 'cannot read /proc/self/mem: Input/output error')
        with tempfile.TemporaryDirectory() as room:
            path = os.path.join(room, 'socket')
            with socket.socket(socket.AF_UNIX) as s:
                s.bind(path)
                self.told(search(path), 1, f'cannot read {path}: ')
            path = os.path.join(room, 'secret')
            with open(path, 'wb'):
                os.chmod(path, 0)
            if os.geteuid() != 0:                   # root reads everything
                self.told(search(path), 1, f'{path} cannot be read')

    def test_an_input_that_fails_on_the_way(self):
        # reading this end of a terminal is an error once the other end is closed
        source, other = pty.openpty()
        tty.setraw(other)
        os.write(other, records.to_records(b'geometry 2 1 64 0'))
        with subprocess.Popen([SCRIPT], stdin=source, stdout=subprocess.PIPE, stderr=subprocess.PIPE) as p:
            os.close(source)
            self.assertEqual(p.stdout.readline(), b'geometry 2 1 64 0\n')
            os.close(other)
            said = p.stderr.read().decode()
            self.assertEqual(p.wait(timeout=60), 1)
            self.assertTrue(said.endswith('\nsearch: cannot read standard input: Input/output error.\n'), said)

    def test_by_a_link_and_by_the_path(self):
        with tempfile.TemporaryDirectory() as folder:
            os.symlink(SCRIPT, os.path.join(folder, 'far'))
            os.mkdir(os.path.join(folder, 'bin'))
            os.mkdir(os.path.join(folder, os.path.basename(ROOT)))  # where CDPATH would lead
            os.symlink(os.path.join('..', 'far'), os.path.join(folder, 'bin', 'search'))
            first = os.path.join(ROOT, 'examples', 'first.txt')
            for word, more in [
                (os.path.join(folder, 'bin', 'search'), {}),
                ('bin/search', {'cwd': folder}),
                ('search', {'env': dict(os.environ, PATH=os.path.join(folder, 'bin') + ':' + os.environ['PATH'])}),
                ('search', {'env': dict(os.environ, PATH=ROOT + ':' + os.environ['PATH'])}),
                (os.path.basename(ROOT) + '/search', {'cwd': os.path.dirname(ROOT), 'env': dict(os.environ, CDPATH=folder)}),
            ]:
                ran = subprocess.run(['sh', '-c', 'exec "$0" "$1"', word, first], capture_output=True, **more)
                self.assertEqual((ran.returncode, ran.stdout, ran.stderr), (0, listing(), b''), word)
        self.assertIn(b'./search FILE', subprocess.run(['sh', 'search', '--help'], cwd=ROOT, capture_output=True).stdout)

    def test_help_and_version(self):
        ran = search('--help')
        self.assertEqual((ran.returncode, ran.stderr), (0, b''))
        self.assertIn(b'./search FILE', ran.stdout)
        for status in (b'0', b'1', b'2', b'130', b'141'):
            self.assertRegex(ran.stdout.split(b'Exit status: ')[1], rb'\b%s\b' % status)
        self.assertNotIn(b'#!', ran.stdout)
        kit = subprocess.run(['rt', 'version'], capture_output=True, text=True).stdout
        lines = search('--version').stdout.decode().split('\n', 1)
        self.assertRegex(lines[0], r'\Asearch \(bbqvec in Rattle\) \d+\.\d+\.\d+\Z')
        self.assertEqual(lines[1], 'toolchain: ' + kit)


def feed(p, data):
    try:
        p.stdin.write(data)
        p.stdin.close()
    except BrokenPipeError:
        with contextlib.suppress(BrokenPipeError):
            p.stdin.close()


@needs_rt
class Explained(unittest.TestCase):
    # A text that is refused for every reason the program has, with what is said of each refusal; 9 and 10 cannot be reached from an empty index.
    TEXT = [
        ('add 1 2 0', 'add refused 1: it comes before an accepted geometry'),
        ('record 9', 'record refused 15: there is no kind 9;'),
        ('geometry 9 1 64 0', 'geometry refused 1: D is 9, and the program takes 1 to 8'),
        ('geometry 2 0 64 0', 'geometry refused 1: N is 0, and the program takes 1 to 4'),
        ('geometry 2 1 100 0', 'geometry refused 1: C is 100, and the program takes 64, 128, 192 and 256'),
        ('geometry 2 1 64 2', 'geometry refused 1: MODE is 2, and there are 0 and 1'),
        ('record 1 02 00', 'geometry refused 2: its body has 2 bytes, and a geometry has 9'),
        ('geometry 2 2 64 0', None),
        ('geometry 2 2 64 0', 'geometry refused 1: a geometry was accepted before, and a run has one'),
        ('basis 2 1 0 0 1', 'basis refused 1: the basis number 2 is not below N, 2'),
        ('basis 0 1 0 0', 'basis refused 2: it has 3 components, and 4 belong there'),
        ('basis 0 inf 0 0 1', None),
        ('add 1 2 0', 'add refused 7: a dot product with a row of a basis is not finite'),
        ('basis 0 1 0 0 1', None),
        ('basis 1 1 0 0 1', None),
        ('record 3 00', 'add refused 2: its body has 1 bytes, and 12 belong there'),
        ('add 64 2 0', 'add refused 3: the id 64 is not below the capacity, 64'),
        ('add 1 1 -inf', 'add refused 5: component 2 of 2 is not finite: -inf'),
        ('add 1 0 -0', 'add refused 6: every component is zero'),
        ('add 1 1e-30 0', 'add refused 6: the norm comes to zero or is not finite in 32 bits'),
        ('add 1 1e30 0', 'add refused 6: the norm comes to zero or is not finite in 32 bits'),
        ('add 1 2 0', None),
        ('add 2 2 0', None),
        ('basis 1 1 0 0 1', 'basis refused 1: it comes after the first accepted addition'),
        ('query 2 1 0 1 0', None),                  # with a list of two, whose lines answer no record
        ('query 257 1 0 1 0', 'query refused 4: K is 257, and 256 is the most'),
        ('query 1 1 0 nan 0', 'query refused 5: component 1 of 2 is not finite: nan'),
        ('query 1 1 0 1', 'query refused 2: it has 1 components, and 2 belong there'),
        ('query 1 70000 0 1 0', 'query refused 8: SEARCH_K asks for a layer of 70000 ids or more, and no layer has as many'),
    ]
    ENDS = [
        ('raw 01 02', 'record refused 15: the input ends within a record; the program reads no further'),
        ('raw 05 00 00 00 09 00', 'record refused 15: the input ends within a record; the program reads no further'),
        ('raw 01 02 03 04', 'record refused 15: a record starts with its length, 2 to 512, and here it would be 67305985;'),
    ]

    def test_every_reason_in_words_and_the_output_as_it_is(self):
        for ending in self.ENDS:
            lines = self.TEXT + [ending]
            text = ''.join(f'{line}\n\n' for line, _ in lines).encode()
            data = records.to_records(text)
            plain = search(data=text)
            self.assertEqual((plain.returncode, plain.stderr), (0, b''))
            self.assertEqual(plain.stdout.decode(), program_model.printed(data))
            for given, place in ((text, lambda i: f'line {2 * i + 1}'), (data, lambda i: f'record {i + 1}')):
                ran = search('--explain', data=given)
                self.assertEqual((ran.returncode, ran.stdout), (0, plain.stdout))
                said = ran.stderr.decode().splitlines()
                expected = [f'search: {place(i)}: {why}' for i, (_, why) in enumerate(lines) if why]
                self.assertEqual(len(said), len(expected), said)
                for a, b in zip(said, expected):
                    self.assertTrue(a.startswith(b), (a, b))

    def test_every_number_has_words(self):
        reasons = records.Reasons(records.Frames())
        reasons.geometry = [2, 1, 64, 0]
        body = struct.pack('<HIHff', 300, 1, 0, 1, 0)
        self.assertEqual(reasons.why(9, 5, body), 'an id of the chosen layer has no present mark')
        self.assertEqual(reasons.why(10, 5, body), 'a score is not a number')

    def test_drawn_runs_are_explained_one_for_one(self):
        r = random.Random(4)
        for _ in range(4):
            data = drawn(r, 60)
            ran = search('--records', '--explain', data=data)
            self.assertEqual(ran.stdout.decode(), program_model.printed(data))
            numbers = [line.split()[1] for line in ran.stdout.decode().splitlines() if line.startswith('refused')]
            self.assertGreater(len(numbers), 0)
            self.assertEqual(re.findall(r'^search: record \d+: \w+ refused (\d+): \S', ran.stderr.decode(), re.M), numbers)

    def test_on_a_terminal_the_reason_follows_the_line(self):
        control, screen = pty.openpty()
        with subprocess.Popen([SCRIPT, 'examples/first.txt'], cwd=ROOT, stdin=subprocess.DEVNULL, stdout=screen, stderr=screen) as p:
            os.close(screen)
            shown = b''
            with contextlib.suppress(OSError):      # the end of a terminal
                while piece := os.read(control, 1000):
                    shown += piece
            self.assertEqual(p.wait(timeout=60), 0)
        os.close(control)
        lines = shown.decode().split('\r\n')
        at = lines.index('refused 8')
        self.assertRegex(lines[at + 1], r'\Asearch: line \d+: query refused 8: SEARCH_K asks for a layer of 3 ids')
        del lines[at + 1]
        self.assertEqual('\n'.join(lines).encode(), listing())


class Building(Sentences):
    """The script in a project of its own, with a made-up toolchain: rt proves nothing and the program is cat, so what is seen is the script's."""

    def setUp(self):
        room = tempfile.TemporaryDirectory()
        self.addCleanup(room.cleanup)
        self.room = room.name
        for folder in ('project/crates/search', 'project/tools', 'bin'):
            os.makedirs(os.path.join(self.room, folder))
        shutil.copy2(SCRIPT, self.path('project', 'search'))
        shutil.copy2(os.path.join(ROOT, 'tools', 'records'), self.path('project', 'tools', 'records'))
        with open(self.path('project', 'crates.txt'), 'w') as f:
            f.write('# seven are needed, and three are not\na:\nb: a\nc: a b\nd: io c\ne:a\nf: libc e # d\nx: a\ny: f\nz: y\nsearch: d f\n')
        self.script('uname', 'echo ${MACHINE:-x86_64}')

    def path(self, *parts):
        return os.path.join(self.room, *parts)

    def script(self, name, text):
        path = self.path('bin', name)
        with open(path, 'w') as f:
            f.write(f'#!/bin/sh\n{text}\n')
        os.chmod(path, 0o755)
        return path

    def toolchain(self, last=''):
        self.script('rt', f'''
            [ "$*:${{PWD##*/}}" = run:search ] || exit 9
            cat                                     # nothing of the script's own input may come here
            for name in a b c d e f search; do echo "fn $name::f: proved"; echo "logic=proved functions=1 sum=0"; done
            {last}
            mkdir -p out && printf '#!/bin/sh\\nexec cat\\n' > out/search && chmod +x out/search
            echo "rt: running out/search; to give it other input, run that file yourself"''')

    def search(self, *words, data=b'', path=None, **env):
        env = dict(os.environ, PATH=path or self.path('bin') + ':' + os.environ['PATH'], TMPDIR=self.path(), **env)
        return subprocess.run([self.path('project', 'search'), *words], input=data, capture_output=True, env=env)

    def test_the_progress_in_sparse_lines(self):
        self.toolchain()
        before = set(os.listdir(self.room))
        ran = self.search('--records', data=b'records')
        self.assertEqual((ran.returncode, ran.stdout), (0, b'records'))
        lines = ran.stderr.decode().splitlines()
        self.assertIn('the 7 crates', lines[0])
        self.assertEqual(lines[1:], ['search: 5 of 7 crates proved', 'search: 7 of 7 crates proved'])
        self.assertEqual(set(os.listdir(self.room)), before)       # no log is left behind
        # built, it is not built again, and no toolchain is needed, until a crate changes
        os.remove(self.path('bin', 'rt'))
        tools = self.search('--records', data=b'records', path=self.tools('python3'))
        self.assertEqual((tools.returncode, tools.stdout, tools.stderr), (0, b'records', b''))
        with open(self.path('project', 'crates', 'search', 'new'), 'w'):
            pass
        os.utime(self.path('project', 'crates', 'search', 'out', 'search'), (1, 1))
        self.told(self.search('--records', path=self.tools('python3')), 1, 'there is no rt on the path')

    def test_the_progress_on_a_terminal_is_one_line(self):
        self.toolchain()
        control, screen = pty.openpty()
        env = dict(os.environ, PATH=self.path('bin') + ':' + os.environ['PATH'])
        words = [self.path('project', 'search'), '--records']
        with subprocess.Popen(words, stdin=subprocess.DEVNULL, stdout=subprocess.PIPE, stderr=screen, env=env) as p:
            os.close(screen)
            self.assertEqual(p.stdout.read(), b'')
            shown = b''
            with contextlib.suppress(OSError):
                while piece := os.read(control, 1000):
                    shown += piece
        os.close(control)
        lines = shown.decode().split('\r\n')
        self.assertEqual(lines[1], ''.join(f'\rsearch: {n} of 7 crates proved' for n in range(1, 8)))
        self.assertEqual(lines[2:], [''])

    def test_a_build_that_fails(self):
        self.toolchain(last='echo "fn search::main: not proved"; exit 1')
        before = set(os.listdir(self.room))
        ran = self.search('--records', data=b'records')
        self.assertEqual(set(os.listdir(self.room)), before)       # no log is left behind
        said = ran.stderr.decode()
        self.assertEqual((ran.returncode, ran.stdout), (1, b''))
        self.assertIn('fn search::main: not proved', said)
        self.assertTrue(said.endswith('search: the program could not be built; rt run in crates/search shows all of it.\n'), said)

    def test_another_processor(self):
        self.toolchain()
        self.search('--records')
        self.told(self.search('--records', MACHINE='other', path=self.tools('python3')), 1, 'there is no qemu-x86_64 on the path')
        self.script('qemu-x86_64', 'echo emulated; exec "$@"')
        ran = self.search('--records', data=b'records', MACHINE='other')
        self.assertEqual((ran.returncode, ran.stdout, ran.stderr), (0, b'emulated\nrecords', b''))

    def test_a_program_that_fails(self):
        """With python3 and without it."""
        self.toolchain()
        self.search('--records')
        for text, part in [('exit 3', 'the program ended with status 3'), ('kill -9 $$', 'the program was ended by signal 9')]:
            with open(self.path('project', 'crates', 'search', 'out', 'search'), 'w') as f:
                f.write(f'#!/bin/sh\n{text}\n')
            for path in (None, self.tools()):
                self.told(self.search('--records', data=b'records' * 100000, path=path), 1, part)

    def test_an_input_that_cannot_be_read_without_python(self):
        self.toolchain()
        self.search('--records')
        self.told(self.search('--records', '/proc/self/mem', path=self.tools()), 1, 'the input cannot be read: Input/output error')

    def tools(self, *more):
        """A path with the tools that the script calls, and no more than that."""
        folder = self.path('few')
        if not os.path.exists(folder):
            os.mkdir(folder)
            os.symlink(self.path('bin', 'uname'), os.path.join(folder, 'uname'))
            for name in ('awk', 'cat', 'dirname', 'find', 'head', 'mktemp', 'readlink', 'rm', 'sed', 'sh', 'tail', 'touch', *more):
                os.symlink(shutil.which(name), os.path.join(folder, name))
        return folder

    def test_without_python(self):
        self.toolchain()
        self.search('--records')
        ran = self.search('--records', data=b'records', path=self.tools())
        self.assertEqual((ran.returncode, ran.stdout, ran.stderr), (0, b'records', b''))
        ran = self.search('--records', self.path('project', 'crates.txt'), path=self.tools())
        self.assertEqual((ran.returncode, ran.stdout[:7], ran.stderr), (0, b'# seven', b''))
        self.told(self.search(data=b'text', path=self.tools()), 1, 'python3 is needed to read a text')
        self.told(self.search('--records', '--explain', path=self.tools()), 1, 'python3 is needed to explain')
        env, words = dict(os.environ, PATH=self.tools()), [self.path('project', 'search'), '--records']
        with open('/dev/full', 'wb') as full:
            ran = subprocess.run(words, input=b'records', stdout=full, stderr=subprocess.PIPE, env=env)
        self.told(ran, 1, 'standard output cannot be written: No space left on device')
        with subprocess.Popen(words, stdin=subprocess.PIPE, stdout=subprocess.PIPE, stderr=subprocess.PIPE, env=env) as p:
            p.stdout.close()
            feed(p, b'records')
            self.assertEqual((p.wait(timeout=60), p.stderr.read()), (141, b''))
        self.assertEqual(self.search('--version', path=self.tools()).stdout.count(b'\n'), 1)


@unittest.skipUnless(shutil.which('rt'), 'the toolchain is not on the path')
class Program(unittest.TestCase):
    @classmethod
    def setUpClass(cls):
        search('--records')                         # builds it

    def test_the_runs_of_the_gate_in_pieces(self):
        r = random.Random(1)
        for name, crate in RUNS.items():
            data = records.to_records(text_of(name))
            with open(os.path.join(ROOT, 'crates', crate, 'stdout'), 'rb') as f:
                expected = f.read()
            for most in (1, 3, 7, 700, len(data)):
                self.assertEqual(in_pieces(cut(r, data, most) if most > 1 or len(data) < 1000 else [data]), expected)

    def test_drawn_runs(self):
        r = random.Random(2)
        for _ in range(40):
            data = drawn(r, r.choice([3, 20, 120]))
            self.assertEqual(in_pieces(cut(r, data, r.choice([5, 60, 5000]))).decode(), program_model.printed(data))

    def test_every_cut_of_the_worked_example(self):
        data = records.to_records(text_of('worked'))
        for end in range(len(data) + 1):
            self.assertEqual(ran_on(data[:end]).decode(), program_model.printed(data[:end]), end)

    def test_random_bytes(self):
        r = random.Random(3)
        for _ in range(20):
            data = bytes(r.randrange(256) for _ in range(r.randint(0, 300)))
            self.assertEqual(ran_on(data).decode(), program_model.printed(data))

    def test_megabytes(self):
        one = records.record(b'\x09\x00', b'')
        self.assertEqual(ran_on(one * 700000), b'refused 15\n' * 700000)
        start = records.to_records(text_of('worked'))[:-22 * 3]
        query = records.to_records(b'query 2 1 0 1 0')
        out = search(data=start + query * 100000).stdout.decode()      # through the script
        self.assertEqual(out, program_model.printed(start) + 'found 2 checked 2\n1 00000000\n5 00000000\n' * 100000)

    def test_an_output_that_nobody_reads(self):
        one = records.record(b'\x09\x00', b'')
        with subprocess.Popen(program(), stdin=subprocess.PIPE, stdout=subprocess.PIPE) as p:
            p.stdout.close()
            try:
                p.stdin.write(one * 300000)
                p.stdin.close()
            except BrokenPipeError:
                pass
            p.wait(timeout=60)


if __name__ == '__main__':
    unittest.main()
