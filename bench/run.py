#!/usr/bin/env python3
"""Times the program `study` on a feeder of 1,024 sections against a plain Rust program of the same method (bench/plain.rs, rustc -O) and,
for the indices, against a plain count over single faults. Best of several runs each, in one run; prints microseconds a line and ratios.
Run it from the root after tests/build.sh, on an otherwise idle machine."""
import os, random, struct, subprocess, sys, tempfile, time

ROOT = os.path.dirname(os.path.dirname(os.path.abspath(__file__)))
STUDY = os.path.join(ROOT, 'crates', 'study', 'out', 'study')
RUNS = 9

def archive(rng):
    """1,024 sections in a random tree, every record full, one switch in ten."""
    out = struct.pack('>HH', 1024, 60)
    for k in range(1024):
        fields = struct.pack('>IdHH', rng.randint(1, 2000), rng.randint(1, 40) / 4, rng.randint(0, 200), rng.randint(0, 400))
        if k == 0:
            out += bytes([0x1E]) + fields
        else:
            switch = 0x20 if rng.random() < 0.1 else 0
            out += bytes([0x1F | switch]) + struct.pack('>H', max(0, k - rng.randint(1, 12))) + fields
    return out

def lines(rng):
    bare = [k for k in range(1, 1024)]
    yield 'D', ['D %d' % rng.randrange(1024) for _ in range(20000)]
    yield 'C', ['C %d' % rng.randrange(1024) for _ in range(20000)]
    yield 'L', ['L %d' % rng.randrange(1024) for _ in range(10000)]
    yield 'G', ['G %d' % rng.choice(bare) for _ in range(20000)]
    yield 'X', ['X'] * 8000
    yield 'F, U', [f'{c} {k}' for k in rng.choices(bare, k=150000) for c in 'FU']
    yield 'S', ['S %d %d %d %d %d' % (rng.randrange(1024), rng.randint(0, 9999), rng.randint(1, 672), rng.randint(0, 4000), rng.randint(0, 4000)) for _ in range(200000)]
    yield 'refused', ['D 1 ', 'Z', 'F 4294967296'] * 100000

def timed(command, path, folder, runs=RUNS):
    best, out = None, None
    for _ in range(runs):
        with open(path, 'rb') as f:
            start = time.perf_counter()
            out = subprocess.run(command, stdin=f, stdout=subprocess.PIPE, cwd=folder, check=True).stdout
            took = time.perf_counter() - start
        best = took if best is None else min(best, took)
    return best, out

def main():
    rng = random.Random(7)
    with tempfile.TemporaryDirectory() as folder:
        plain = os.path.join(folder, 'plain')
        subprocess.run(['rustc', '-O', '--edition', '2021', '-o', plain, os.path.join(ROOT, 'bench', 'plain.rs')], check=True)
        with open(os.path.join(folder, 'feeder.arc'), 'wb') as f:
            f.write(archive(rng))
        empty = os.path.join(folder, 'empty')
        open(empty, 'wb').close()
        start = {c: timed([c], empty, folder, 40)[0] for c in (STUDY, plain)}
        print('%-10s %10s %10s %8s' % ('line', 'study us', 'plain us', 'ratio'))
        for name, rows in lines(rng):
            path = os.path.join(folder, 'lines')
            with open(path, 'w') as f:
                f.write('\n'.join(rows) + '\n')
            ours, out = timed([STUDY], path, folder)
            theirs, same = timed([plain], path, folder)
            if out != same:
                sys.exit('the programs differ on ' + name)
            a, b = ((t - start[c]) * 1e6 / len(rows) for t, c in ((ours, STUDY), (theirs, plain)))
            print('%-10s %10.3f %10.3f %8.2f' % (name, a, b, a / b))
            if name == 'X':
                with open(path, 'w') as f:
                    f.write('X\n' * 3)
                counted, _ = timed([plain, 'count'], path, folder, 3)
                c = (counted - start[plain]) * 1e6 / 3
                print('%-10s %10.3f %10.0f %8.0f times as long' % ('X, count', a, c, c / a))
        print('start and load of 1,024 full records: study %.0f us, plain %.0f us' % (start[STUDY] * 1e6, start[plain] * 1e6))
    rss = subprocess.run(['/usr/bin/time', '-f', '%M', STUDY], stdin=subprocess.DEVNULL, stdout=subprocess.DEVNULL, stderr=subprocess.PIPE, cwd=os.path.join(ROOT, 'crates', 'study', 'data')).stderr
    print('peak memory of study: %s KiB' % rss.decode().strip())

main()
