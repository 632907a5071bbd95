// The mirror's logic in plain C, written for speed: the twin that `glazomir` is measured against. It reads a log on
// standard input in blocks of 32 KiB and prints the same thirteen lines. It serves both chips, as the mirror does: `chip 6635`
// has two lines. The last place of display memory, 15 or 31, is handed in beside the panel: in it, it would be read again
// after every byte that is stored. It keeps the bits of the written places, as the mirror does, and at the end walks display
// memory and ends with 1 where they disagree: a compiler could leave out bits that nothing asks for.
#include <stdint.h>
#include <stdio.h>
#include <string.h>
#include <unistd.h>

// Each answer is the place of its count.
enum { TAKEN, DOUBTFUL, HELD, STATUS, IGNORED, TORN, BACK, BAD, NONE, COUNTS };
enum { EMPTY, MISSED, WAITING };
enum { RESET_TIME = 10000, LONG_TIME = 1640, SHORT_TIME = 40 };

typedef struct {
    uint64_t busy, last, counts[COUNTS], records;
    uint32_t written;
    uint8_t display[32], pattern[32];
    uint8_t in_pattern, address, shift, good;
    uint8_t up, follow, on, cursor, blink, eight, function;
    uint8_t half, half_rs, half_rw, nibble;
} panel;

static void fresh(panel *p) {
    memset(p->display, 0x20, sizeof p->display);
    memset(p->pattern, 0, sizeof p->pattern);
    p->written = 0;
    p->in_pattern = p->address = p->shift = p->good = 0;
    p->up = 1;
    p->follow = p->on = p->cursor = p->blink = 0;
    p->eight = 1;
    p->function = 0;
    p->half = EMPTY;
}

static inline void step(panel *p, uint8_t last_place, int up) {
    uint8_t last = p->in_pattern ? 31 : last_place;
    p->address = (p->address + (up ? 1 : last)) & last;
}

static inline void obey(panel *p, uint8_t last_place, uint8_t code) {
    if (code >= 0x80) {
        p->in_pattern = 0;
        p->address = code & last_place;
        p->good = 1;
    } else if (code >= 0x40) {
        p->in_pattern = 1;
        p->address = code & 31;
        p->good = 1;
    } else if (code >= 0x20) {
        p->eight = code >> 4 & 1;
        p->function = code & 15;
        p->good = 0;
    } else if (code >= 0x18) {
        p->shift = (p->shift + (code & 4 ? 15 : 1)) & 15;
    } else if (code >= 0x10) {
        step(p, last_place, code >> 2 & 1);
        p->good = !p->in_pattern;
    } else if (code >= 0x08) {
        p->on = code >> 2 & 1;
        p->cursor = code >> 1 & 1;
        p->blink = code & 1;
        p->good = 0;
    } else if (code >= 0x04) {
        p->up = code >> 1 & 1;
        p->follow = code & 1;
        p->good = 0;
    } else {
        if (code == 0x01) {
            memset(p->display, 0x20, sizeof p->display);
            p->written = 0;
            p->up = 1;
        }
        p->in_pattern = p->address = p->shift = p->good = 0;
    }
}

static inline void store(panel *p, uint8_t last_place, uint8_t byte) {
    p->good = 0;
    if (p->in_pattern) {
        p->pattern[p->address] = byte & 31;
        step(p, last_place, p->up);
    } else {
        uint32_t bit = (uint32_t)1 << p->address;
        p->display[p->address] = byte;
        p->written &= ~bit;
        if (byte != 0x20) p->written |= bit;
        step(p, last_place, p->up);
        if (p->follow) p->shift = (p->shift + (p->up ? 1 : 15)) & 15;
    }
}

static inline int finish(panel *p, uint8_t last_place, uint64_t time, int rs, uint8_t byte) {
    if (rs) {
        store(p, last_place, byte);
        p->busy = time + SHORT_TIME;
        return TAKEN;
    }
    if (byte == 0) return NONE;
    obey(p, last_place, byte);
    p->busy = time + (byte < 4 ? LONG_TIME : SHORT_TIME);
    return TAKEN;
}

// A data read that is carried out. Good and doubtful are told apart where they are answered, as in the mirror.
static inline int pass(panel *p, uint8_t last_place, uint64_t time) {
    step(p, last_place, p->up);
    p->busy = time + SHORT_TIME;
    if (p->good) return TAKEN;
    p->good = 1;
    return DOUBTFUL;
}

// The byte at the address, where a read of it is good; otherwise 0.
static inline uint8_t here(const panel *p) {
    if (!p->good) return 0;
    return p->in_pattern ? p->pattern[p->address] : p->display[p->address];
}

static inline int first(panel *p, uint64_t time, int rs, int rw, uint8_t byte) {
    p->half_rs = rs;
    p->half_rw = rw;
    p->half = WAITING;
    if (rw && !rs) {
        p->nibble = p->address & 15;
        return HELD;
    }
    if (time < p->busy) {
        p->half = MISSED;
        return IGNORED;
    }
    p->nibble = rw ? here(p) & 15 : byte >> 4;
    return HELD;
}

// Whether the chip takes a byte that this transfer completes. Told first, as in the mirror: the compiler then has one place
// for what acts on it.
static inline int completes(panel *p, uint64_t time, int rs, int rw) {
    if (rw) return 0;
    if (p->eight) return p->busy <= time;
    return p->half == WAITING && p->half_rs == rs && !p->half_rw;
}

static inline int transfer(panel *p, uint8_t last_place, uint64_t time, int rs, int rw, uint8_t byte) {
    p->last = time;
    if (completes(p, time, rs, rw)) {
        uint8_t whole = p->eight ? byte : p->nibble << 4 | byte >> 4;
        p->half = EMPTY;
        return finish(p, last_place, time, rs, whole);
    }
    if (p->eight) {
        if (rw && !rs) return STATUS;
        if (time < p->busy || !rw) return IGNORED;
        return pass(p, last_place, time);
    }
    if (p->half == EMPTY) return first(p, time, rs, rw, byte);
    int missed = p->half == MISSED;
    p->half = EMPTY;
    if (p->half_rs != rs || p->half_rw != rw) return TORN;
    if (missed) return IGNORED;
    if (!rs) return STATUS;
    return pass(p, last_place, time);
}

// A transfer of the right length: its time and control are tested here.
static inline int usable(panel *p, uint8_t last_place, const uint8_t *r) {
    uint64_t time;
    memcpy(&time, r + 4, 8);
    if (time >> 48 != 0 || r[12] > 3) return BAD;
    return time < p->last ? BACK : transfer(p, last_place, time, r[12] & 1, r[12] >> 1, r[13]);
}

static inline int reset(panel *p, const uint8_t *r) {
    uint64_t time;
    memcpy(&time, r + 4, 8);
    if (time >> 48 != 0) return BAD;
    if (time < p->last) return BACK;
    fresh(p);
    p->last = time;
    p->busy = time + RESET_TIME;
    return TAKEN;
}

// Every whole record at the front; answers how many bytes they are, or sets cut where a length is wrong. One look at the
// first four bytes tells a transfer of the right length, as in the mirror.
static size_t consume(panel *p, uint8_t last_place, const uint8_t *log, size_t n, int *cut) {
    size_t at = 0;
    while (n - at >= 2) {
        const uint8_t *r = log + at;
        uint32_t head;
        uint16_t length, kind;
        if (n - at >= 14 && (memcpy(&head, r, 4), head == 0x1000C)) {
            p->counts[usable(p, last_place, r)]++;
            p->records++;
            at += 14;
            continue;
        }
        memcpy(&length, r, 2);
        if (length < 2 || length > 64) {
            *cut = 1;
            return at;
        }
        if (n - at - 2 < length) return at;
        memcpy(&kind, r + 2, 2);
        at += length + 2;
        p->counts[kind == 2 && length == 10 ? reset(p, r) : BAD]++;
        p->records++;
    }
    return at;
}

// Bit a is set exactly when the byte at address a isn't 20h.
static uint32_t walked(const panel *p) {
    uint32_t bits = 0;
    for (int a = 0; a < 32; a++) bits |= (uint32_t)(p->display[a] != 0x20) << a;
    return bits;
}

static uint8_t block[32768 + 66];

int main(int argc, char **argv) {
    static const char *names[] = {"taken", "doubtful", "held", "status", "ignored", "torn", "back", "bad", "none"};
    panel p = {0};
    size_t kept = 0;
    int cut = 0;
    ssize_t got;
    uint8_t last_place = argc > 2 && !strcmp(argv[2], "6635") ? 31 : 15;
    fresh(&p);
    while (!cut && (got = read(0, block + kept, 32768)) > 0) {
        size_t n = kept + got, used = consume(&p, last_place, block, n, &cut);
        kept = n - used;
        memmove(block, block + used, kept);
    }
    printf("records %llu\n", (unsigned long long)p.records);
    for (int i = 0; i < COUNTS; i++) printf("%s %llu\n", names[i], (unsigned long long)p.counts[i]);
    printf("cut %d\n%s %02X\ncodes", cut || kept, p.in_pattern ? "pattern" : "address", p.address);
    for (int i = 0; i <= last_place; i++) printf(" %02X", p.display[i]);
    printf("\n");
    if (p.written == walked(&p)) return 0;
    fprintf(stderr, "mirror_c: the bits of the written places disagree with display memory\n");
    return 1;
}
