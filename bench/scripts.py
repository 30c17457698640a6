#!/usr/bin/env python3
"""Time and peak memory of scripts over modules of growing size.

    bench/scripts.py PROGRAM [FAMILY ...]

The families, all by default:

  read         n `linalg.generic` with a script that isn't applied: what reading, verifying and printing take
  match        a match of n `linalg.generic`
  generalize   n `linalg.matmul`, matched and generalized
  interchange  n `linalg.generic`, matched, with their dimensions interchanged
  fuse         n `linalg.generic` in a chain, fused: the limit on steps of a payload leaves one for each 1,024 of them
  steps        n steps over 8 `linalg.generic`: a match and an interchange in turn

PROGRAM reads each text from standard input, under --transform-interpreter but for the first family. Where mlir-opt-22 is
installed, it runs on the same text. A row for each size has the best time of five runs, the peak memory, and how both grew
from the size before.
"""
import shutil
import sys

from texts import best

TYPE = 'tensor<8x8xi8>'
HANDLE = '!transform.any_op'


def generic(number, source):
    """An operation with two parallel dimensions."""
    return [
        f'  %r{number} = linalg.generic {{indexing_maps = [#id, #id], iterator_types = ["parallel", "parallel"]}} '
        f'ins({source} : {TYPE}) outs(%e : {TYPE}) {{',
        '  ^bb0(%x: i8, %o: i8):',
        '    %s = arith.addi %x, %x : i8',
        '    linalg.yield %s : i8',
        f'  }} -> {TYPE}',
    ]


def product(number, source):
    """A product with a tensor of the function."""
    return [f'  %r{number} = linalg.matmul ins({source}, %a : {TYPE}, {TYPE}) outs(%e : {TYPE}) -> {TYPE}']


def match(name, handle):
    """The line that matches operations of this name."""
    return f'    %{handle} = transform.structured.match ops{{["{name}"]}} in %m : ({HANDLE}) -> {HANDLE}'


def interchange(target, handle):
    """The line that interchanges two dimensions."""
    return f'    %{handle} = transform.structured.interchange %{target} iterator_interchange = [1, 0] : ({HANDLE}) -> {HANDLE}'


def text(operation, count, steps):
    """A chain of so many operations, and a script of these lines."""
    lines = ['#id = affine_map<(d0, d1) -> (d0, d1)>', f'func.func @f(%a: {TYPE}) -> {TYPE} {{', f'  %e = tensor.empty() : {TYPE}']
    source = '%a'
    for number in range(count):
        lines += operation(number, source)
        source = f'%r{number}'
    lines += [
        f'  return {source} : {TYPE}',
        '}',
        'module attributes {transform.with_named_sequence} {',
        f'  transform.named_sequence @__transform_main(%m: {HANDLE} {{transform.readonly}}) {{',
        *steps,
        '    transform.yield',
        '  }',
        '}',
        '',
    ]
    return '\n'.join(lines).encode()


def matched(count):
    """A match of all generics."""
    return text(generic, count, [match('linalg.generic', 'g')])


def generalized(count):
    """All products become generics."""
    return text(product, count, [
        match('linalg.matmul', 'g'), f'    %h = transform.structured.generalize %g : ({HANDLE}) -> {HANDLE}'])


def interchanged(count):
    """All generics with their dimensions in the other order."""
    return text(generic, count, [match('linalg.generic', 'g'), interchange('g', 'h')])


def fused(count):
    """All pairs of generics become one while they fit."""
    return text(generic, count, [
        match('func.func', 'f'),
        f'    %h = transform.apply_registered_pass "linalg-fuse-elementwise-ops" to %f : ({HANDLE}) -> {HANDLE}'])


def many_steps(count):
    """So many steps over 8 generics."""
    return text(generic, 8, [
        line for number in range(count // 2)
        for line in (match('linalg.generic', f'g{number}'), interchange(f'g{number}', f'h{number}'))])


APPLIED = ['--transform-interpreter']
FAMILIES = {
    'read': (matched, (1_000, 8_000), []),
    'match': (matched, (1_000, 8_000), APPLIED),
    'generalize': (generalized, (1_000, 8_000), APPLIED),
    'interchange': (interchanged, (1_000, 8_000), APPLIED),
    'fuse': (fused, (1_000, 8_000), APPLIED),
    'steps': (many_steps, (100, 1_000), APPLIED),
}


def rows(program, family):
    """A row for each size."""
    make, sizes, words = FAMILIES[family]
    before = None
    for size in sizes:
        content = make(size)
        seconds, peak = best([program, *words], content)
        growth = '' if before is None else f'{seconds / before[0]:8.1f} x {peak / before[1]:8.1f} x'
        print(f'{family:12} {size:8} {len(content):9} {seconds * 1000:9.1f} ms {peak:9} KiB {growth}')
        before = seconds, peak


def main():
    if len(sys.argv) < 2 or any(family not in FAMILIES for family in sys.argv[2:]):
        sys.exit(__doc__)
    print('family           size     bytes         time          peak   growth of time and peak')
    for program in [sys.argv[1], shutil.which('mlir-opt-22')]:
        if program:
            print(program)
            for family in sys.argv[2:] or FAMILIES:
                rows(program, family)


if __name__ == '__main__':
    main()
