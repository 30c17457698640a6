#!/usr/bin/env python3
"""Runs what README.md and docs/REFUSALS.md show, and compares what it prints.

    bench/readme.py PROGRAM

In README.md a block of `sh` with another block behind it is run in the repository, with PROGRAM in the place of `./mlir_opt`; what it
prints on both streams has to be the block behind it. A block of `mlir` that isn't such an output has to be a file of examples/. The
stored run of crates/mlir_opt_main has to be that of examples/add.mlir.

In docs/REFUSALS.md a row of a table is run where its second column is code. What begins with `$ ` is a command, where `mlir_opt`
stands for PROGRAM; anything else is a text for standard input, under `--transform-interpreter` below the heading Scripts. The line on standard error has to be the one of the first column,
nothing may stand on standard output, and the status is 1, or the one of the third column where that is a number.

A line for each difference, then one with the counts.
"""
import glob
import os
import re
import subprocess
import sys

TOP = os.path.join(os.path.dirname(os.path.abspath(__file__)), '..')
BLOCK = re.compile(r'^```(\w*)\n(.*?)^```$', re.M | re.S)
CELL = re.compile(r'(?<!\\)\|')


def read(name):
    """The text of a file of the repository."""
    with open(os.path.join(TOP, name), encoding='utf-8') as file:
        return file.read()


def shell(command, program, text=''):
    """The status, standard output and standard error of a command with the program in its place."""
    command = re.sub(r'(?<![\w/])(\./)?mlir_opt(?![\w./])', f'"{program}"', command)
    done = subprocess.run(['sh', '-c', command], cwd=TOP, input=text, capture_output=True, text=True, check=False)
    return done.returncode, done.stdout, done.stderr


def examples(program):
    """Each command of README.md with what is wrong, or None."""
    blocks = BLOCK.findall(read('README.md'))
    outputs = set()
    commands = []
    for at, (kind, text) in enumerate(blocks[:-1]):
        if kind == 'sh' and blocks[at + 1][0] != 'sh':
            outputs.add(at + 1)
            commands.append((text, blocks[at + 1][1]))
    files = [read(name) for name in glob.glob(os.path.join(TOP, 'examples/*.mlir'))]
    for at, (kind, text) in enumerate(blocks):
        if kind == 'mlir' and at not in outputs:
            yield 'an input', None if text in files else 'is no file of examples/'
    for command, want in commands:
        _, out, err = shell(command, program)
        yield command.strip(), None if out + err == want or err + out == want else f'prints {err + out!r}'
    same = read('examples/add.mlir') == read('crates/mlir_opt_main/stdin')
    _, out, _ = shell('mlir_opt examples/add.mlir', program)
    yield 'the stored run', None if same and out == read('crates/mlir_opt_main/stdout') else "isn't that of examples/add.mlir"


def cells(row):
    """The cells of a row of a table."""
    return [cell.strip().replace('\\|', '|') for cell in CELL.split(row.strip())[1:-1]]


def code(cell):
    """What a cell holds that is code and nothing else."""
    found = re.fullmatch(r'(`+) ?(.*?) ?\1', cell)
    return found.group(2) if found else None


def refusals(program):
    """Each row of docs/REFUSALS.md with what is wrong, or None."""
    words = ''
    for row in read('docs/REFUSALS.md').splitlines():
        if row.startswith('## '):
            words = ' --transform-interpreter' if row == '## Scripts' else ''
        parts = cells(row) if row.startswith('| `') else []
        line, example = (code(parts[0]), code(parts[1])) if len(parts) > 2 else (None, None)
        if not line or not example:
            continue
        status = int(parts[2]) if parts[2].isdigit() else 1
        if not example.startswith('$ '):
            told = shell('mlir_opt' + words, program, example)
        elif 'mlir_opt' in example:
            told = shell(example[2:], program)
        else:
            told = shell('mlir_opt', program, shell(example[2:], program)[1])
        yield line, None if told == (status, '', line + '\n') else f'is {told[2].strip()!r} with status {told[0]}'


def main():
    if len(sys.argv) != 2:
        sys.exit(__doc__)
    program = os.path.abspath(sys.argv[1])
    tried = wrong = 0
    for what, told in [*examples(program), *refusals(program)]:
        tried += 1
        if told:
            wrong += 1
            print(f'{what}: {told}')
    print(f'{tried} tried, {wrong} differ')
    sys.exit(1 if wrong else 0)


if __name__ == '__main__':
    main()
