#!/usr/bin/env python3
"""Makes the stored run of the program `job` from the Rust source.

  make.py SOURCE [--check]    SOURCE is the folder that holds the source's files as they were handed over;
                              --check compares with the run that stands and writes nothing

Writes crates/job/stdin, one job whose text is longer than a pipe holds (64 KiB), and crates/job/stdout, the Rust's answer to
it: judge.rs of tests/replay over the unchanged module. The same seed makes the same bytes. Needs rustc and nothing else.
Beside this file: `two`, document 01's whole case of two columns, word for word."""
import os, random, subprocess, sys, tempfile

sys.dont_write_bytecode = True

HERE = os.path.dirname(os.path.abspath(__file__))
sys.path.insert(0, os.path.join(HERE, '..', 'replay'))
import remake

CRATE = os.path.join(HERE, '..', '..', 'crates', 'job')
SEED, N = 20261115, 90

def main():
    if len(sys.argv) < 2: sys.exit(__doc__)
    # dense: 4,095 of the 4,096 entries that a job may store; the diagonal outweighs its column, so that it is accepted
    r = random.Random(SEED)
    a = remake.dominant(r, N, remake.edges(r, 'dense', N))
    job = remake.text(remake.lines(N, a, remake.sides(r, N), len(a)))
    with tempfile.TemporaryDirectory() as d:
        told = subprocess.run([remake.build(sys.argv[1], d)], input=remake.framed([job]), capture_output=True, check=True).stdout
    answer, = remake.unframed(told)
    for name, data in (('stdin', job), ('stdout', answer)):
        path = os.path.join(CRATE, name)
        if '--check' in sys.argv:
            assert open(path, 'rb').read() == data, name + ' differs'
        else:
            open(path, 'wb').write(data)
    print(len(a), 'entries,', len(job), 'bytes:', answer.split(b'\n')[0].decode())

main()
