#!/usr/bin/env python3
"""Makes the matrices and runs of crates/widths and the Rust's answers to them.

  make.py BUILD               writes crates/widths/stdin and crates/widths/stdout
  make.py BUILD --check       compares instead
  make.py BUILD PROGRAM FROM TO      holds PROGRAM (what `rt run` leaves in crates/widths/out) to the Rust on the lists of the seeds FROM to TO - 1

BUILD is a folder with the cut source as cholesky.rs (bench/baseline.py SOURCE BUILD/cholesky.rs makes it). list.rs, beside
this file, says what the lists hold; it draws from the seed alone, so that they are remade byte for byte."""
import os, shutil, subprocess, sys

HERE = os.path.dirname(os.path.abspath(__file__))
CRATE = os.path.join(HERE, '..', '..', 'crates', 'widths')
SEED = 20261115

def built(build):
    shutil.copy(os.path.join(HERE, 'list.rs'), build)
    subprocess.run(['rustc', '--edition', '2024', '-O', '-A', 'warnings', '-o', 'list', 'list.rs'], cwd=build, check=True)

def lists(build, seed):
    """The two lists, and what list.rs counts of them."""
    names = [os.path.join(build, x) for x in ('stdin', 'stdout')]
    said = subprocess.run([os.path.join(build, 'list'), str(seed)] + names, capture_output=True, text=True, check=True).stdout
    return [open(x, 'rb').read() for x in names] + [said]

def main():
    words = sys.argv[1:]
    if len(words) not in (1, 2, 4) or words[1:] and (len(words) == 2) != (words[1] == '--check'):
        sys.exit(__doc__)
    build = os.path.abspath(words[0])
    built(build)
    if len(words) == 4:
        runs = 0
        for seed in range(int(words[2]), int(words[3])):
            asked, told, _ = lists(build, seed)
            got = subprocess.run([words[1]], input=asked, capture_output=True, check=True).stdout
            if got != told:
                sys.exit('seed %d: %s differs' % (seed, [x for x, (a, b) in enumerate(zip(got.split(b'\n'), told.split(b'\n'))) if a != b][:9] or 'the length'))
            runs += told.count(b'\n')
        print(runs, 'runs, all as the Rust has them')
        return
    asked, told, said = lists(build, SEED)
    for name, data in (('stdin', asked), ('stdout', told)):
        path = os.path.join(CRATE, name)
        if '--check' in words:
            assert open(path, 'rb').read() == data, name + ' differs'
        else:
            open(path, 'wb').write(data)
    print(said, end='')

main()
