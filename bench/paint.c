// The painter in plain C, written for speed: the twin that `paintings` is measured against. It paints the panel that a log
// leaves as often, with the same font, shifts and blink, and prints the same two lines, for either chip and either mode.
#define main mirror_main
#include "mirror.c"
#undef main

static uint8_t font[1920], frame[160];

static int sound(const panel *p, uint8_t last_place) {
    if (p->address > (p->in_pattern ? 31 : last_place) || p->shift > 15 || p->function > 15) return 0;
    for (int i = last_place + 1; i < 32; i++)
        if (p->display[i] != 0x20) return 0;
    for (int i = 0; i < 32; i++)
        if (p->pattern[i] > 31) return 0;
    if (p->half != EMPTY && (p->eight || p->nibble > 15)) return 0;
    return p->last >> 48 == 0 && p->busy < (1ull << 48) + 65536;
}

// One line, from its first byte on, each cell by columns, which are turned in mode B.
static inline __attribute__((always_inline)) void put_columns(const panel *restrict p, uint8_t *restrict top, int line, int cursor, int dark, int turned) {
    int blink = p->blink && dark, under = p->cursor, shift = p->shift;
    for (int cell = 0; cell < 16; cell++) {
        uint8_t code = p->display[16 * line + ((cell + shift) & 15)];
        const uint8_t *rows = code < 16 ? p->pattern + 8 * (code & 3) : font + 8 * (code - 16);
        uint8_t dots[8];
        for (int r = 0; r < 8; r++) dots[r] = cell == cursor && (blink || (under && r == 7)) ? 31 : rows[r] & 31;
        for (int c = 0; c < 5; c++) {
            int x = turned ? 79 - (5 * cell + c) : 5 * cell + c;
            for (int r = 0; r < 8; r++) top[10 * r + x / 8] |= (dots[r] >> (4 - c) & 1) << (7 - x % 8);
        }
    }
}

// Functions of their own that are told that a frame is no part of a panel are faster by a sixteenth than the loop within the
// other, and one for each mode by a twenty-fifth than one for both.
__attribute__((noinline)) static void put_line(const panel *restrict p, uint8_t *restrict top, int line, int cursor, int dark) {
    put_columns(p, top, line, cursor, dark, 0);
}

__attribute__((noinline)) static void put_turned(const panel *restrict p, uint8_t *restrict top, int line, int cursor, int dark) {
    put_columns(p, top, line, cursor, dark, 1);
}

// The ones of each byte of the frame, added up: the fastest of five ways to count them (docs/DECISIONS.md, "Speed").
static int count(int size) {
    uint16_t lit = 0;
    for (int i = 0; i < size; i++) {
        uint8_t b = frame[i];
        b -= b >> 1 & 0x55;
        b = (b & 0x33) + (b >> 2 & 0x33);
        lit += (b + (b >> 4)) & 15;
    }
    return lit;
}

static int paint(const panel *p, uint8_t last_place, int dark) {
    if (!sound(p, last_place)) return 0;
    int lines = last_place / 16 + 1;
    memset(frame, 0, 80 * lines);
    if (!p->on) return 0;
    int cursor_line = p->address / 16 % lines, cursor = (p->address + 16 - p->shift) & 15;
    for (int line = 0; line < lines; line++) {
        int at = line == cursor_line ? cursor : -1;
        if (p->function & 1)
            put_turned(p, frame + 80 * (lines - 1 - line), line, at, dark);
        else
            put_line(p, frame + 80 * line, line, at, dark);
    }
    return count(80 * lines);
}

int main(int argc, char **argv) {
    static uint8_t whole[65536];
    panel p = {0};
    int cut = 0;
    uint8_t last_place = argc > 2 && !strcmp(argv[2], "6635") ? 31 : 15;
    fresh(&p);
    ssize_t got = read(0, whole, sizeof whole);
    consume(&p, last_place, whole, got > 0 ? got : 0, &cut);
    for (int i = 0; i < 1920; i++) font[i] = 37 * i + 5;
    p.on = p.cursor = p.blink = 1;
    uint64_t total = 0;
    for (uint32_t i = 0; i < 100000; i++) {
        p.shift = i % 16;
        total = (total + paint(&p, last_place, i % 2)) % 1000000007;
    }
    printf("%llu\n", (unsigned long long)total);
    for (int i = 0; i < 5 * (last_place + 1); i++) printf("%02X", frame[i]);
    printf("\n");
}
