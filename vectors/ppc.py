"""What the vector scripts share: GNU objdump's reading of words, words run on qemu-ppc, and the tools they need."""
import os, re, shutil, struct, subprocess, tempfile

HERE = os.path.dirname(os.path.abspath(__file__))
ROOT = os.path.dirname(HERE)
TOOLS = {'objdump': 'binutils-multiarch', 'qemu-ppc': 'qemu-user', 'clang': 'clang', 'ld.lld': 'lld'}

def install():
    "Debian packages for what is missing. Plain binutils' objdump knows no PowerPC: ask it."
    missing = [p for t, p in TOOLS.items() if not shutil.which(t)]
    if shutil.which('objdump') and 'powerpc' not in subprocess.run(['objdump', '-i'], capture_output=True, text=True).stdout:
        missing.append(TOOLS['objdump'])
    if missing:
        subprocess.run(['apt-get', 'update', '-q'], check=True, stdout=subprocess.DEVNULL)
        subprocess.run(['apt-get', 'install', '-y', '-q', *missing], check=True, stdout=subprocess.DEVNULL)

def objdump(words, options='750cl,raw'):
    "(name, operands) as GNU objdump prints each word, the first at address 0"
    install()
    with tempfile.TemporaryDirectory() as d:
        path = os.path.join(d, 'words')
        open(path, 'wb').write(struct.pack(f'>{len(words)}I', *words))
        text = subprocess.run(['objdump', '-b', 'binary', '-m', 'powerpc', '-M', options, '-EB', '-D', '-z', path],
                              capture_output=True, text=True, check=True).stdout
    lines = re.findall(r'^ *[0-9a-f]+:\t(?:[0-9a-f]{2} ){4}\t(\S+) *(.*)$', text, re.M)
    assert len(lines) == len(words), (len(lines), len(words))
    return [(name, operands.split('\t')[0].strip()) for name, operands in lines]

def run(cases):
    "r0 to r31 after each (word, r0 to r31 before), on a 750CL"
    install()
    with tempfile.TemporaryDirectory() as d:
        subprocess.run(['clang', '--target=powerpc-linux-gnu', '-mcpu=750', '-c', f'{HERE}/run_words.S', '-o', f'{d}/run.o'], check=True)
        subprocess.run(['ld.lld', '--section-start=.low=0x2000', f'{d}/run.o', '-o', f'{d}/run'], check=True)
        with open(f'{d}/in', 'wb') as f:
            for word, before in cases: f.write(struct.pack('>33I', word, *before))
        out = subprocess.run(['qemu-ppc', '-cpu', '750cl_v2.0', f'{d}/run'], stdin=open(f'{d}/in', 'rb'), capture_output=True, check=True).stdout
    assert len(out) == 128 * len(cases), 'a word trapped or branched'
    return [struct.unpack('>32I', out[128 * i:128 * i + 128]) for i in range(len(cases))]

def write(path, records):
    "records of words, big-endian"
    with open(path, 'wb') as f:
        for r in records: f.write(struct.pack(f'>{len(r)}I', *r))
