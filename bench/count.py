"""What the bench scripts share: guest instructions of a run, and the two sides built."""
import os, re, subprocess, sys
HERE = os.path.dirname(os.path.abspath(__file__))
ROOT = os.path.dirname(HERE)
ORACLE = f'{ROOT}/oracle/target/release/oracle'

def made(command, folder, missing):
    done = subprocess.run(command, cwd=folder, stdin=subprocess.DEVNULL, capture_output=True, text=True)
    if done.returncode: sys.exit(f"{' '.join(command)}: {(done.stdout + done.stderr)[-2000:]}\n{missing}")

def proved(program):
    "a program of ours; where it is"
    made(['rt', 'run'], f'{ROOT}/crates/{program}', f'{program} is not proved')
    return f'{ROOT}/crates/{program}/out/{program}'

def build(program):
    "the Rust, for release, and a program of ours; where it is"
    made(['cargo', 'build', '--release', '--offline', '--quiet'], f'{ROOT}/oracle', 'oracle/README.md says what the Rust needs')
    return proved(program)

def run(command, given):
    "guest instructions, and what was written"
    with open(given, 'rb') as stdin:
        done = subprocess.run([f'{HERE}/icount', *command], stdin=stdin, capture_output=True, text=True)
    found = re.search(r'insns (\d+)', done.stderr)
    if done.returncode or not found: sys.exit(f"{' '.join(command)}: {done.stderr[-2000:]}")
    return int(found.group(1)), done.stdout
