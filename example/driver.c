/* A small driver for the PowerPC 750: nine DMA channels share one pool of buffers. It is an example to audit, and has the
   fault of the story: `pool_release` is called for a transfer that may still be in flight, behind one case of a switch. */
typedef unsigned char u8;
typedef unsigned int u32;

enum { CHANNELS = 9, BUFFERS = 32, BUFFER_BYTES = 256 };

/* The device: a bank of registers for each channel. */
struct bank { volatile u32 control, address, length, event; };
#define BANKS ((struct bank *)0xcc006000)
enum { START = 1, STOP = 2, ACKNOWLEDGE = 4 };

struct buffer { struct buffer *next; u32 length; u8 bytes[BUFFER_BYTES]; };
struct channel { struct buffer *current; u32 sent, errors, retries; };

struct buffer pool[BUFFERS];
struct channel channels[CHANNELS];
struct buffer *free_list;
u32 buffers_free, heading;

struct buffer *pool_take(void) {
    struct buffer *b = free_list;
    if (!b) return 0;
    free_list = b->next;
    buffers_free--;
    return b;
}

void pool_release(struct buffer *b) {
    b->length = 0;
    b->next = free_list;
    free_list = b;
    buffers_free++;
}

static void channel_start(u32 c) {
    struct channel *ch = &channels[c];
    if (!ch->current) ch->current = pool_take();
    if (!ch->current) { ch->errors++; return; }
    BANKS[c].address = (u32)ch->current->bytes;
    BANKS[c].length = ch->current->length;
    BANKS[c].control = START;
}

static void channel_done(u32 c) {
    struct channel *ch = &channels[c];
    ch->sent++;
    ch->current = 0;
    heading = BANKS[c].length;
}

static void channel_retry(u32 c) {
    struct channel *ch = &channels[c];
    if (++ch->retries > 3) ch->errors++;
    else BANKS[c].control = START;
}

/* What the device tells of a channel. */
void channel_event(u32 c) {
    struct channel *ch = &channels[c];
    switch (BANKS[c].event) {
    case 0: return;
    case 1: channel_start(c); break;
    case 2: channel_done(c); break;
    case 3: channel_retry(c); break;
    case 4: ch->errors++; break;
    case 5: pool_release(ch->current); ch->current = 0; break; /* and the transfer is in flight */
    case 6: BANKS[c].control = STOP; break;
    case 7: ch->retries = 0; break;
    default: ch->errors += 16;
    }
    BANKS[c].control = ACKNOWLEDGE;
}

/* Called by nobody here: no start leads to it. */
u32 driver_selftest(void) {
    u32 n = 0;
    for (struct buffer *b = free_list; b; b = b->next) n++;
    return n == buffers_free;
}

void driver_interrupt(u32 pending) {
    for (u32 c = 0; c < CHANNELS; c++)
        if (pending >> c & 1) channel_event(c);
}

void driver_init(void) {
    free_list = 0;
    for (u32 i = 0; i < BUFFERS; i++) { pool[i].next = free_list; free_list = &pool[i]; }
    buffers_free = BUFFERS;
    for (u32 c = 0; c < CHANNELS; c++) BANKS[c].control = STOP;
}
