#!/usr/bin/env python3
"""Prints a text that passes a limit by one, or with --at one that keeps it.

    bench/limits.py WHICH [--at]
    bench/limits.py --try PROGRAM

The second form gives PROGRAM both texts of every limit: the first is refused by its line, the second accepted.
"""
import subprocess
import sys

NOTHING = 'func.func @f() { return }\n'


def function(body='', signature='()'):
    """A function with these operations before its `return`."""
    return f'func.func @f{signature} {{\n{body}  return\n}}\n'


def parameter(extents):
    """A function with one parameter, of these extents."""
    return function(signature='(%a: tensor<' + ''.join(f'{extent}x' for extent in extents) + 'i8>)')


def generic(inputs, dims, steps):
    """A `linalg.generic` without axes of its own: so many inputs, iterators and payload steps."""
    axes = 'x'.join(['1'] * dims + ['i8'])
    names = ', '.join(f'd{dim}' for dim in range(dims))
    maps = ', '.join([f'affine_map<({names}) -> ({names})>'] * (inputs + 1))
    iterators = ', '.join(['"parallel"'] * dims)
    ins = f"ins({', '.join(['%a'] * inputs)} : {', '.join([f'tensor<{axes}>'] * inputs)}) " if inputs else ''
    arguments = ', '.join(f'%x{number}: i8' for number in range(inputs + 1))
    payload = ''.join(f'    %s{step} = arith.addi %x0, %x0 : i8\n' for step in range(steps))
    return function(
        f'  %r = linalg.generic {{indexing_maps = [{maps}], iterator_types = [{iterators}]}} {ins}outs(%a : tensor<{axes}>) {{\n'
        f'  ^bb0({arguments}):\n{payload}    linalg.yield %x0 : i8\n  }} -> tensor<{axes}>\n',
        f'(%a: tensor<{axes}>)')


def script(steps):
    """A script of so many steps."""
    line = '  transform.structured.vectorize %m : !transform.any_op\n'
    return ('module attributes {transform.with_named_sequence} {\n'
            ' transform.named_sequence @__transform_main(%m: !transform.any_op {transform.readonly}) {\n'
            f'{line * steps}  transform.yield\n }}\n}}\n')


# What a text has of each limit, and the text; `more` is 1 where the limit is passed.
TEXTS = {
    'bytes': lambda more: NOTHING + '//' + 'x' * (4_194_302 - len(NOTHING) + more),
    'operations': lambda more: function(''.join(f'  %e{n} = tensor.empty() : tensor<i8>\n' for n in range(65_535 + more))),
    'parameters': lambda more: function(signature='(' + ', '.join(f'%a{n}: tensor<i8>' for n in range(64 + more)) + ')'),
    'results': lambda more: (
        f"func.func @f(%a: tensor<i8>) -> ({', '.join(['tensor<i8>'] * (16 + more))}) {{\n"
        f"  return {', '.join(['%a'] * (16 + more))} : {', '.join(['tensor<i8>'] * (16 + more))}\n}}\n"),
    'operands': lambda more: generic(63 + more, 0, 0),
    'payload-steps': lambda more: generic(0, 0, 1_024 + more),
    'script-steps': lambda more: script(1_024 + more),
    'loops': lambda more: function(
        '  %r = linalg.generic {indexing_maps = ['
        + ', '.join([f"affine_map<({', '.join(f'd{n}' for n in range(12 + more))}) -> (" + ', '.join(f'd{n}' for n in part) + ')>'
                     for part in (range(8), range(8, 12 + more), range(4))])
        + '], iterator_types = [' + ', '.join(['"parallel"'] * 4 + ['"reduction"'] * (8 + more)) + ']} '
        + f"ins(%a, %b : tensor<{'1x' * 8}i8>, tensor<{'1x' * (4 + more)}i8>) outs(%o : tensor<1x1x1x1xi8>) {{\n"
        + '  ^bb0(%x: i8, %y: i8, %z: i8):\n    linalg.yield %z : i8\n  } -> tensor<1x1x1x1xi8>\n',
        f"(%a: tensor<{'1x' * 8}i8>, %b: tensor<{'1x' * (4 + more)}i8>, %o: tensor<1x1x1x1xi8>)"),
    'rank': lambda more: parameter([1] * (8 + more)),
    'extent': lambda more: parameter([1_048_576 + more]),
    'elements': lambda more: parameter([5, 838_861] if more else [4, 1_048_576]),
}


def answer(program, text):
    """The status and the line of the program on a text."""
    done = subprocess.run([program], input=text, capture_output=True, text=True, check=False)
    return done.returncode, done.stderr


def main():
    words = sys.argv[1:]
    if len(words) == 2 and words[0] == '--try':
        wrong = 0
        for which, text in TEXTS.items():
            told = answer(words[1], text(1)), answer(words[1], text(0))
            if told != ((1, f'error: limit {which}\n'), (0, '')):
                wrong += 1
                print(f'{which}: {told}')
        print(f'{len(TEXTS)} limits, {wrong} answered wrongly')
        sys.exit(1 if wrong else 0)
    if not words or words[0] not in TEXTS or words[1:] not in ([], ['--at']):
        sys.exit(__doc__)
    sys.stdout.write(TEXTS[words[0]](0 if words[1:] else 1))


if __name__ == '__main__':
    main()
