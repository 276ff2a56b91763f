"""ELF files for the PowerPC as an image and a walk over it: records of kinds 1 and 10 of docs/FORMATS.md."""
import struct

NOBITS, SYMTAB, RELA = 8, 2, 4
WRITE, ALLOC, EXEC = 1, 2, 4
OBJECT, FUNCTION = 1, 2
# Relocations: a word; a half-word of an instruction; a branch, with the bits of its displacement.
ABSOLUTE, HALF_WORDS, BRANCHES = 1, (4, 5, 6), {10: 0x3fffffc, 11: 0xfffc}
CODE, DATA, READ_ONLY, BSS = range(4)
NOWHERE = 0xffffffff

class Elf:
    "One file: its allocated sections, functions, objects and relocations, by section number and address."

    def __init__(self, path):
        self.bytes = bytearray(open(path, 'rb').read())
        assert self.bytes[:6] == b'\x7fELF\x01\x02' and self.at('>H', 18) == (20,), f'{path} is no big-endian PowerPC ELF'
        self.relocatable = self.at('>H', 16) == (1,)
        table, = self.at('>I', 32)
        size, count = self.at('>HH', 46)
        self.headers = [self.at('>10I', table + i * size) for i in range(count)]
        self.kept = [i for i, h in enumerate(self.headers) if h[2] & ALLOC and h[5]]
        self.symbols = [s for h in self.headers if h[1] == SYMTAB for s in self.rows('>IIIBBH', h)]
        self.relocations = list(self.bound()) if self.relocatable else []

    def at(self, form, place):
        return struct.unpack_from(form, self.bytes, place)

    def rows(self, form, h):
        return list(struct.iter_unpack(form, self.bytes[h[4]:h[4] + h[5]]))

    def kind(self, i):
        h = self.headers[i]
        return CODE if h[2] & EXEC else BSS if h[1] == NOBITS else DATA if h[2] & WRITE else READ_ONLY

    def address(self, i): return self.headers[i][3]

    def data(self, i):
        h = self.headers[i]
        return b'' if h[1] == NOBITS else bytes(self.bytes[h[4]:h[4] + h[5]])

    def place(self, symbol):
        "section number and address; a relocatable file counts from the section's start"
        return symbol[5], symbol[1] + (self.address(symbol[5]) if self.relocatable else 0)

    def named(self, type):
        "place -> size of the symbols of a type that lie in a section kept"
        found = {}
        for s in self.symbols:
            if s[3] & 15 == type and s[5] in self.kept: found[self.place(s)] = max(s[2], found.get(self.place(s), 0))
        return found

    def undefined(self):
        "names that other files are to give"
        text, = [h for h in self.headers if h[1] == SYMTAB]
        names = self.headers[text[6]][4]
        return sorted(self.bytes[names + s[0]:self.bytes.index(b'\0', names + s[0])].decode() for s in self.symbols[1:] if s[5] == 0)

    def bound(self):
        """place, kind, symbol's place (or none), addend; half-word ones stand at their instruction. Branches inside a section
        are carried out, as the linker of a module does."""
        for h in self.headers:
            if h[1] != RELA or h[7] not in self.kept: continue
            for offset, info, addend in self.rows('>IIi', h):
                type, symbol = info & 255, self.symbols[info >> 8]
                if type in BRANCHES and symbol[5] == h[7]:
                    at = self.headers[h[7]][4] + offset
                    word = self.at('>I', at)[0] & ~BRANCHES[type] | (symbol[1] + addend - offset) & BRANCHES[type]
                    struct.pack_into('>I', self.bytes, at, word)
                    continue
                at = offset & ~3 if type in HALF_WORDS else offset
                yield (h[7], self.address(h[7]) + at), int(type != ABSOLUTE), self.place(symbol) if symbol[5] in self.kept else None, addend

def records(paths, slots):
    "the files' sections in one image, and a walk of it from every function: (image, walk), each (kind, words)"
    elfs = [Elf(p) for p in paths]
    index, sections, bounds, data = {}, [], [], b''
    for f, e in enumerate(elfs):
        for i in e.kept:
            index[f, i] = len(bounds)
            held = e.data(i)
            bounds.append((e.kind(i), e.address(i), e.headers[i][5]))
            sections += [e.address(i), e.headers[i][5], e.kind(i), f * 100 + i, len(data), len(held)]
            data += held + b'\0' * (-len(held) % 4)
    def named(type): return sorted(((index[f, i], a), size) for f, e in enumerate(elfs) for (i, a), size in e.named(type).items())
    bound = sorted((index[f, i], a, kind, *((index[f, to[0]], to[1]) if to else (NOWHERE, 0)), addend % 2**32)
                   for f, e in enumerate(elfs) for (i, a), kind, to, addend in e.relocations)
    objects = [(*place, size, int(size > 0)) for place, size in named(OBJECT)]
    starts = [place for place, _ in named(FUNCTION) if bounds[place[0]][0] == CODE]
    code = [(i, a, size) for i, (kind, a, size) in enumerate(bounds) if kind == CODE]
    words = sum(size for _, _, size in code) // 4
    assert len(bound) <= 4096 and len(objects) <= 4096 and words <= 262144, 'more than an image holds'
    image = [int(elfs[0].relocatable), 0, len(bounds), len(bound), 0, len(objects), *sections, *flat(bound), *flat(objects)]
    packed = list(struct.unpack(f'>{len(data) // 4}I', data))
    first, last = code[0], code[-1]
    walk = [slots, (words + 31) // 32, 0, 0, 0, 0, 0, first[0], first[1], 1, last[0], last[1] + last[2], len(starts), *flat(starts)]
    return (1, [len(image), *image, len(data), *packed]), (10, walk)

def flat(rows): return [n for row in rows for n in row]

def with_turns(path, turns):
    "a copy of a case that is to be walked so often"
    copy = f'{path}-{turns}'
    open(copy, 'wb').write(struct.pack('>I', turns) + open(path, 'rb').read()[4:])
    return copy

def code_words(path):
    "W of a case's image"
    words = struct.unpack('>6I', open(path, 'rb').read()[4 * 4:4 * 10])
    sections = struct.iter_unpack('>6I', open(path, 'rb').read()[4 * 10:4 * (10 + 6 * words[2])])
    return sum(size // 4 for _, size, kind, *_ in sections if kind == CODE)

def image_file(image, given, starts, data):
    "an image file's bytes (docs/FORMATS.md): the image's words, the nine words that a walk is given, starts, data"
    words = [0x47454c52, 1, len(image), len(starts), len(data), *given, *image, *flat(starts)]
    return struct.pack(f'>{len(words)}I', *words) + bytes(data)

def as_image_file(path):
    "a case as an image file"
    held = open(path, 'rb').read()
    words = struct.unpack(f'>{len(held) // 4}I', held)
    m = words[3]
    d = words[4 + m]
    walk = words[5 + m + (d + 3) // 4 + 2:]
    starts = [walk[13 + 2 * i:15 + 2 * i] for i in range(walk[12])]
    return image_file(words[4:4 + m], walk[3:12], starts, held[4 * (5 + m):4 * (5 + m) + d])

def write(path, turns, records):
    "how often the walk is to be done, then the records"
    words = [turns] + flat([kind, len(payload), *payload] for kind, payload in records)
    open(path, 'wb').write(struct.pack(f'>{len(words)}I', *words))
