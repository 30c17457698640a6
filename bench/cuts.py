#!/usr/bin/env python3
"""Tries a program on texts that are cut or lack a token.

    bench/cuts.py PROGRAM [FILE ...]

For each FILE (all of examples/ by default), every prefix of the text and every text without one of its tokens is given to
PROGRAM on standard input. Its status has to be 0 or 1. Under 1 nothing may stand on standard output and one line on standard
error; what is written under 0 has to be written again as it stands. A line for each text that breaks this, then one with the counts.
"""
import glob
import os
import re
import subprocess
import sys

TOKEN = re.compile(r'//[^\n]*|"[^"\n]*"|->|[#%@!^]?[A-Za-z0-9_.$]+|\S')


def run(program, text):
    """The status, standard output and standard error of the program on a text."""
    done = subprocess.run([program], input=text, capture_output=True, check=False)
    return done.returncode, done.stdout, done.stderr


def changed(text):
    """The texts that are cut or lack a token, each with a name."""
    for end in range(len(text)):
        yield f'the first {end} bytes', text[:end]
    for found in TOKEN.finditer(text.decode()):
        if not found.group().startswith('//'):
            yield f'without byte {found.start()} to {found.end()}', text[:found.start()] + text[found.end():]


def fault(program, text):
    """What is wrong with the program's answer, or None; and whether the text was accepted."""
    status, out, err = run(program, text)
    if status == 0:
        again = run(program, out)
        return (None if again == (0, out, b'') else 'is not written again'), True
    if status != 1:
        return f'status {status}', False
    if out or err.count(b'\n') != 1 or not err.startswith(b'error: '):
        return 'a refusal is more or less than its line', False
    return None, False


def main():
    if len(sys.argv) < 2:
        sys.exit(__doc__)
    files = sys.argv[2:] or sorted(glob.glob(os.path.join(os.path.dirname(__file__), '../examples/*.mlir')))
    texts = accepted = wrong = 0
    for name in files:
        with open(name, 'rb') as file:
            whole = file.read()
        for what, text in [('whole', whole), *changed(whole)]:
            told, is_accepted = fault(sys.argv[1], text)
            texts += 1
            accepted += is_accepted
            if told:
                wrong += 1
                print(f'{name}: {what}: {told}')
    print(f'{texts} texts: {accepted} accepted, {texts - accepted} refused, {wrong} answered wrongly')
    sys.exit(1 if wrong else 0)


if __name__ == '__main__':
    main()
