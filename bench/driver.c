/* Code for measurements: what a driver with buffers, channels and checksums does, compiled for the 750 and walked or
   stepped word by word. It is never run. */
typedef unsigned char u8;
typedef unsigned short u16;
typedef unsigned int u32;

struct buffer { u8 *data; u32 length, owner, flags; struct buffer *next; };
struct channel { struct buffer *head, *tail; u32 count, status, base, errors; u16 id, prio; };
struct pool { struct buffer all[64]; struct channel ch[9]; u32 free, used; };

static volatile u32 *const regs = (volatile u32 *)0xcc006000;

u32 checksum(const u8 *p, u32 n) {
    u32 a = 1, b = 0;
    for (u32 i = 0; i < n; i++) { a = (a + p[i]) % 65521; b = (b + a) % 65521; }
    return b << 16 | a;
}

void enqueue(struct pool *p, u32 c, struct buffer *b) {
    struct channel *ch = &p->ch[c];
    b->next = 0; b->owner = c; b->flags |= 0x8000;
    if (ch->tail) ch->tail->next = b; else ch->head = b;
    ch->tail = b; ch->count++;
    regs[c * 4] = (u32)b->data; regs[c * 4 + 1] = b->length; regs[c * 4 + 2] = ch->base | 3;
}

struct buffer *dequeue(struct pool *p, u32 c) {
    struct channel *ch = &p->ch[c];
    struct buffer *b = ch->head;
    if (!b) return 0;
    ch->head = b->next;
    if (!ch->head) ch->tail = 0;
    ch->count--; b->flags &= ~0x8000u; b->next = 0;
    return b;
}

u32 classify(struct pool *p, u32 c) {
    u32 s = regs[c * 4 + 3], r = 0;
    for (int i = 0; i < 8; i++) {
        switch ((s >> (i * 4)) & 15) {
        case 0: r += 1; break;
        case 1: r ^= s; break;
        case 2: p->ch[c].errors++; break;
        case 3: r = r << 3 | r >> 29; break;
        case 4: r -= p->ch[c].count; break;
        case 5: r |= 0x100; break;
        case 6: r &= ~0x200u; break;
        case 7: r *= 5; break;
        default: r += 7;
        }
    }
    p->ch[c].status = r;
    return r;
}

void sweep(struct pool *p) {
    for (u32 c = 0; c < 9; c++)
        while (p->ch[c].count) {
            struct buffer *b = dequeue(p, c);
            if (!b) break;
            if (checksum(b->data, b->length) != b->flags >> 16) p->ch[c].errors++;
            if (classify(p, c) & 1) enqueue(p, (c + 1) % 9, b);
            else { b->owner = 0; p->free++; p->used--; }
        }
}

void mix(u32 *t, const u32 *k, u32 n) {
    u32 a = t[0], b = t[1], c = t[2], d = t[3];
    for (u32 i = 0; i < n; i++) {
        a += (b ^ (c & d)) + k[i & 15] + 0x5a827999u; a = a << 7 | a >> 25;
        d += (a ^ (b & c)) + k[(i + 1) & 15] + 0x6ed9eba1u; d = d << 12 | d >> 20;
        c += (d ^ (a & b)) + k[(i + 2) & 15] + 0x8f1bbcdcu; c = c << 17 | c >> 15;
        b += (c ^ (d & a)) + k[(i + 3) & 15] + 0xca62c1d6u; b = b << 22 | b >> 10;
    }
    t[0] = a; t[1] = b; t[2] = c; t[3] = d;
}
