// logs KIND RECORDS CHIP: writes a log for the benchmark to standard output, for a box with the chip 6631 or 6635. Kinds: eight
// (width 8, mostly taken writes, with polling; about every seventh record is ignored), ordinary (the same, but hardly ever in
// haste), four (width 4, in halves), damage (random damage to eight), reads (width 8, a third of it data reads, good and
// doubtful), writes (width 8, nearly all of it data writes into display memory).
#include <stdint.h>
#include <stdio.h>
#include <stdlib.h>
#include <string.h>

static uint64_t seed = 1;

static uint64_t next(void) {
    uint64_t z = seed += 0x9E3779B97F4A7C15u;
    z = (z ^ z >> 30) * 0xBF58476D1CE4E5B9u;
    z = (z ^ z >> 27) * 0x94D049BB133111EBu;
    return z ^ z >> 31;
}

static int damaged;

// One Clear in so many is not waited for.
static int hasty = 3;

static void record(uint64_t time, int control, int byte) {
    uint8_t r[14] = {12, 0, 1, 0};
    memcpy(r + 4, &time, 8);
    r[12] = control;
    r[13] = byte;
    if (damaged && next() % 4 == 0) {
        switch (next() % 4) {
        case 0: r[2] = next() % 5; break;            // another kind
        case 1: r[12] = next() % 8; break;           // another control
        case 2: r[10] = next() % 16 ? 0 : 1; break;  // a late time
        default: r[9] ^= next() % 2; break;          // a time far off
        }
    }
    fwrite(r, 1, 14, stdout);
}

typedef struct {
    int control, byte, wait;
} transfer;

// Status reads, data writes, address sets, and Clear, now and then in haste.
static transfer writing(int places) {
    int what = next() % 100;
    transfer t = {1, 0x20 + next() % 95, 40};
    if (what < 30) {
        t.control = 2;
    } else if (what >= 75 && what < 97) {
        t.control = 0;
        t.byte = 0x80 + next() % places;
    } else if (what >= 97) {
        t.control = 0;
        t.byte = 1;
        t.wait = next() % hasty ? 1700 : 100;
    }
    return t;
}

// A third are data reads, the others mostly what makes the next one good or doubtful: data writes; address sets, one in four of
// a pattern; cursor shifts. Display shifts and status reads leave it as it is.
static transfer reading(int places) {
    int what = next() % 100;
    transfer t = {3, 0, 40};
    if (what < 15) {
        t.control = 2;
    } else if (what < 45) {
        t.control = 1;
        t.byte = 0x20 + next() % 95;
    } else if (what < 58) {
        t.control = 0;
        t.byte = (next() % 4 ? 0x80 : 0x40) + next() % places;
    } else if (what < 67) {
        t.control = 0;
        t.byte = 0x10 + next() % 16;
    }
    return t;
}

// Data writes into display memory, all of them taken, one byte in four a space; about one transfer in sixteen sets an address.
static transfer storing(int places) {
    transfer t = {1, next() % 4 ? 0x21 + next() % 94 : 0x20, 40};
    if (next() % 16 == 0) {
        t.control = 0;
        t.byte = 0x80 + next() % places;
    }
    return t;
}

int main(int argc, char **argv) {
    if (argc != 4) return 2;
    int four = !strcmp(argv[1], "four"), reads = !strcmp(argv[1], "reads"), writes = !strcmp(argv[1], "writes");
    long records = atol(argv[2]);
    int places = strcmp(argv[3], "6635") ? 16 : 32;
    uint64_t time = 0;
    damaged = !strcmp(argv[1], "damage");
    if (!strcmp(argv[1], "ordinary")) hasty = 200;
    if (four) record(time, 0, 0x20);
    while (records > 0) {
        transfer t = reads ? reading(places) : writes ? storing(places) : writing(places);
        if (four) {
            record(time, t.control, t.byte & 0xF0);
            record(time + 1, t.control, t.byte << 4 & 0xF0);
            records--;
        } else {
            record(time, t.control, t.byte);
        }
        records--;
        time += t.wait;
    }
}
