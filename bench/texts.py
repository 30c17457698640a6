#!/usr/bin/env python3
"""Time and peak memory of reading, verifying and printing modules of growing size.

    bench/texts.py PROGRAM [FAMILY ...]

The families, all by default:

  steps       n additions, in payloads of 1,000 steps
  operations  n operations: 8 of 60 are `linalg.generic`, the others `tensor.empty`
  elements    a constant of n elements, written one by one

PROGRAM reads each text from standard input. Where mlir-opt-22 is installed, it runs on the same text. A row for each
size has the best time of five runs, the peak memory, and how both grew from the size before.
"""
import os
import shutil
import subprocess
import sys
import time

RUNS = 5
STEPS = 1_000
TYPE = 'tensor<8xi8>'


def generic(number, source, steps):
    """An operation whose payload has so many additions."""
    lines = [
        f'  %r{number} = linalg.generic {{indexing_maps = [#id, #id], iterator_types = ["parallel"]}} '
        f'ins({source} : {TYPE}) outs(%e : {TYPE}) {{',
        '  ^bb0(%x: i8, %o: i8):',
        '    %s0 = arith.addi %x, %x : i8',
    ]
    lines += [f'    %s{k} = arith.addi %s{k - 1}, %x : i8' for k in range(1, steps)]
    lines += [f'    linalg.yield %s{steps - 1} : i8', f'  }} -> {TYPE}']
    return lines


def function(body, result):
    """A module of one function."""
    lines = [
        '#id = affine_map<(d0) -> (d0)>',
        f'func.func @f(%a: {TYPE}) -> {TYPE} {{',
        f'  %e = tensor.empty() : {TYPE}',
        *body,
        f'  return {result} : {TYPE}',
        '}',
        '',
    ]
    return '\n'.join(lines).encode()


def steps(additions):
    """A chain of generics of 1,000 additions each."""
    lines, source = [], '%a'
    for number in range(additions // STEPS):
        lines += generic(number, source, STEPS)
        source = f'%r{number}'
    return function(lines, source)


def operations(count):
    """So many operations, the first and the last of the function among them."""
    generics = count * 8 // 60
    lines, source = [], '%a'
    for number in range(generics):
        lines += generic(number, source, 1)
        source = f'%r{number}'
    lines += [f'  %t{number} = tensor.empty() : {TYPE}' for number in range(count - generics - 2)]
    return function(lines, source)


def elements(count):
    """A function that returns a constant of so many elements."""
    digits = ', '.join(str(number % 10) for number in range(count))
    kind = f'tensor<{count}xi8>'
    lines = [
        f'func.func @f() -> {kind} {{',
        f'  %c = arith.constant dense<[{digits}]> : {kind}',
        f'  return %c : {kind}',
        '}',
        '',
    ]
    return '\n'.join(lines).encode()


FAMILIES = {
    'steps': (steps, (1_000, 10_000, 60_000)),
    'operations': (operations, (1_000, 10_000, 60_000)),
    'elements': (elements, (10_000, 100_000, 1_000_000)),
}


def run(command, text):
    """Seconds, and peak memory in KiB, of one run of a command, which is given as its words."""
    begin = time.perf_counter()
    child = subprocess.Popen(command, stdin=subprocess.PIPE, stdout=subprocess.DEVNULL)
    child.stdin.write(text)
    child.stdin.close()
    _, status, usage = os.wait4(child.pid, 0)
    child.returncode = os.waitstatus_to_exitcode(status)
    if child.returncode != 0:
        sys.exit(f"{' '.join(command)}: status {child.returncode}")
    return time.perf_counter() - begin, usage.ru_maxrss


def best(command, text):
    """The best time of five runs, and their peak memory."""
    results = [run(command, text) for _ in range(RUNS)]
    return min(result[0] for result in results), max(result[1] for result in results)


def rows(program, family):
    """A row for each size."""
    make, sizes = FAMILIES[family]
    before = None
    for size in sizes:
        text = make(size)
        seconds, peak = best([program], text)
        growth = '' if before is None else f'{seconds / before[0]:8.1f} x {peak / before[1]:8.1f} x'
        print(f'{family:10} {size:8} {len(text):9} {seconds * 1000:9.1f} ms {peak:9} KiB {growth}')
        before = seconds, peak


def main():
    if len(sys.argv) < 2 or any(family not in FAMILIES for family in sys.argv[2:]):
        sys.exit(__doc__)
    print('family         size     bytes         time          peak   growth of time and peak')
    for program in [sys.argv[1], shutil.which('mlir-opt-22')]:
        if program:
            print(program)
            for family in sys.argv[2:] or FAMILIES:
                rows(program, family)


if __name__ == '__main__':
    main()
