#!/usr/bin/env python3
"""Derives what the program is to print for the runs in tests/runs and tests/long_run.py, and holds it against the Rust.

    python3 tests/confirm_runs.py              the files stdin and stdout of the crates are what the texts and the model give
    python3 tests/confirm_runs.py --write      writes those files
    ORACLE=PATH python3 tests/confirm_runs.py  and every accepted addition and search, and every search refused 8, is put to the Rust, whose
                                               answers have to be the model's, bit for bit (PATH: the oracle's binary `oracle`)
"""
import importlib.machinery
import importlib.util
import os
import subprocess
import sys

ROOT = os.path.dirname(os.path.dirname(os.path.abspath(__file__)))
sys.path.insert(0, os.path.join(ROOT, 'tests'))
import long_run  # noqa: E402
import program_model  # noqa: E402

RUNS = {'worked': 'search', 'mode0': 'search_mode0', 'mode1': 'search_mode1', 'long': 'search_long'}


def tool():
    """tools/records as a module."""
    loader = importlib.machinery.SourceFileLoader('records', os.path.join(ROOT, 'tools', 'records'))
    sys.dont_write_bytecode = True
    module = importlib.util.module_from_spec(importlib.util.spec_from_loader('records', loader))
    loader.exec_module(module)
    return module


def text_of(name):
    if name == 'long':
        return long_run.text()
    path = os.path.join(ROOT, 'examples', 'first.txt') if name == 'worked' else os.path.join(ROOT, 'tests', 'runs', name + '.txt')
    with open(path, 'rb') as f:
        return f.read()


def words(xs):
    return ' '.join(f'{program_model.bits(x):08x}' for x in xs)


def questions(model):
    """The accepted calls as the oracle is asked them, with the answers that the model gives. Bases can be given until an index is used, so a search
    before the first addition is put to an index of its own."""
    d, n, cap, mode = model.geometry
    asked, started = [], False

    def start(bases):
        asked.append((f'index {d} {n} {cap} {mode}', 'ready'))
        asked.extend((f'basis {b} {words(basis)}', 'ready') for b, basis in enumerate(bases))

    for call in model.calls:
        if call[0] == 'add':
            if not started:
                start(model.bases)
                started = True
            asked.append((f'add {call[1]} {d} {words(call[2])}', 'added'))
        else:
            _, bases, k, search_k, spill, target, found = call
            if not started:
                start(bases)
            if found is None:
                said = "failed Didn't find a counting layer?"
            else:
                said = ' '.join([f'found {len(found.entries)} checked {found.checked}'] + [f'{i} {program_model.bits(s):08x}' for i, s in found.entries])
            asked.append((f'find {k} {search_k} {spill} {d} {words(target)}', said))
    return asked


def ask(oracle, asked):
    """How many answers differ."""
    run = subprocess.run([oracle], input='\n'.join(q for q, _ in asked) + '\n', capture_output=True, text=True, check=True)
    answers = run.stdout.splitlines()
    assert len(answers) == len(asked), (len(answers), len(asked))
    differing = [(q, a, said) for (q, said), a in zip(asked, answers) if a != said]
    for q, a, said in differing[:5]:
        print(f'asked:    {q}\n  Rust:   {a}\n  model:  {said}')
    return len(differing)


def main(args):
    records, wrong = tool(), 0
    for name, crate in RUNS.items():
        data = records.to_records(text_of(name))
        model = program_model.Model()
        model.run(data)
        for file, content in (('stdin', data), ('stdout', model.text().encode())):
            path = os.path.join(ROOT, 'crates', crate, file)
            if args == ['--write']:
                with open(path, 'wb') as f:
                    f.write(content)
            with open(path, 'rb') as f:
                if f.read() != content:
                    print(f'{path} is not what the text and the model give')
                    wrong += 1
        said = ''
        if 'ORACLE' in os.environ:
            asked = questions(model)
            differing = ask(os.environ['ORACLE'], asked)
            wrong += differing
            said = f', {len(asked)} questions put to the Rust, {differing} answers differ'
        kinds = sorted({int(line.split()[1]) for line in model.lines if line.startswith('refused')})
        print(f'{name}: {len(data)} bytes, {len(model.lines)} lines, refusals {kinds}{said}')
    return 1 if wrong else 0


if __name__ == '__main__':
    sys.exit(main(sys.argv[1:]))
