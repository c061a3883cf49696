/* Reads blocks as the crate's reader does, under its promises: read_blocks n|i|o FILE. A window of 24 bits, bytes one at
 * a time and none before a bit of it is asked for, look-ups by 256 first entries and second levels, every test. */
#include <stdint.h>
#include <stdio.h>
#include <stdlib.h>

struct row {
    unsigned symbol, bits, len;
};
#include "tables.h"

enum { END_OF_BLOCK = 4000, ESCAPE = 4001, WINDOW = 24, LINK = 255 };

struct entry {
    uint16_t symbol;
    uint8_t len;
};
struct levels {
    struct entry first[256], second[16][256];
    int count;
};
static struct levels zero, first_zero, one;
static struct {
    uint8_t len, size;
} dc_sizes[512];

static void build(struct levels *to, const struct row *table, int rows) {
    for (int i = 0; i < rows; i++) {
        int len = table[i].len;
        struct entry e = {table[i].symbol, len};
        if (len <= 8) {
            for (int k = 0; k < 1 << (8 - len); k++)
                to->first[(table[i].bits << (8 - len)) + k] = e;
            continue;
        }
        struct entry *link = &to->first[table[i].bits >> (len - 8)];
        if (link->len != LINK) {
            link->len = LINK;
            link->symbol = to->count++;
        }
        uint32_t low = (table[i].bits << (16 - len)) & 255;
        for (int k = 0; k < 1 << (16 - len); k++)
            to->second[link->symbol][low + k] = e;
    }
}

struct source {
    const uint8_t *bytes;
    uint64_t left;
};
struct reader {
    struct source *source;
    uint64_t word; /* the lowest `held` bits are those not yet given */
    uint32_t held;
    uint64_t taken;
};

static inline void fetch(struct reader *r, uint32_t n) {
    struct source *s = r->source;
    while (r->held < n && s->left) {
        r->word = r->word << 8 | *s->bytes++;
        s->left--;
        r->held += 8;
        r->taken++;
    }
}

struct window {
    uint32_t bits, known;
};

static inline struct window peek(struct reader *r) {
    if (r->held < WINDOW) {
        fetch(r, WINDOW);
        if (r->held < WINDOW)
            return (struct window){(uint32_t)((r->word & ((1ull << r->held) - 1)) << (WINDOW - r->held)), r->held};
    }
    return (struct window){(r->word >> (r->held - WINDOW)) & ((1u << WINDOW) - 1), WINDOW};
}

static inline struct entry find(const struct levels *table, struct window w) {
    struct entry e = table->first[w.bits >> 16];
    if (__builtin_expect(e.len == LINK, 0))
        e = table->second[e.symbol][(w.bits >> 8) & 255];
    if (e.len > w.known)
        e.len = 0;
    return e;
}

struct pair {
    uint8_t run;
    int16_t level;
};
struct block {
    int has_dc, size, bits;
    uint64_t count;
    struct pair pairs[64];
};

__attribute__((noinline)) static int read_block(struct reader *r, int kind, struct block *b) {
    int place = 0;
    const struct levels *table = kind == 'n' ? &first_zero : kind == 'i' ? &zero : &one;
    const struct levels *later = kind == 'n' ? &zero : table;
    b->count = 0;
    b->has_dc = 0;
    if (kind != 'n') {
        struct window w = peek(r);
        int at = w.bits >> 15, len = dc_sizes[at].len, size = dc_sizes[at].size;
        if (!len || (uint32_t)(len + size) > w.known)
            return 1;
        b->has_dc = 1;
        b->size = size;
        b->bits = (w.bits >> (WINDOW - len - size)) & ((1 << size) - 1);
        r->held -= len + size;
        place = 1;
    }
    for (;;) {
        struct window w = peek(r);
        struct entry e = find(table, w);
        table = later;
        uint32_t run, len;
        int level;
        if (!e.len)
            return 1;
        if (e.symbol == END_OF_BLOCK) {
            r->held -= e.len;
            return 0;
        }
        if (e.symbol == ESCAPE) {
            run = (w.bits >> 12) & 63;
            level = w.bits & 4095;
            if (place + run > 63 || w.known < WINDOW || level == 0 || level == 2048)
                return 1;
            if (level > 2048)
                level -= 4096;
            len = WINDOW;
        } else {
            run = e.symbol / 64;
            if (place + run > 63 || e.len == w.known)
                return 1;
            level = e.symbol % 64;
            if ((w.bits >> (WINDOW - 1 - e.len)) & 1)
                level = -level;
            len = e.len + 1;
        }
        r->held -= len;
        b->pairs[b->count++] = (struct pair){run, level};
        place += run + 1;
    }
}

int main(int argc, char **argv) {
    build(&zero, coeff_zero, 113);
    build(&first_zero, coeff_first, 112);
    build(&one, coeff_one, 113);
    for (int i = 0; i < 12; i++)
        for (int k = 0, len = dc_luma[i].len; k < 1 << (9 - len); k++) {
            dc_sizes[(dc_luma[i].bits << (9 - len)) + k].len = len;
            dc_sizes[(dc_luma[i].bits << (9 - len)) + k].size = dc_luma[i].symbol;
        }
    FILE *file = fopen(argv[argc - 1], "rb");
    fseek(file, 0, SEEK_END);
    long size = ftell(file);
    rewind(file);
    uint8_t *bytes = malloc(size);
    size = fread(bytes, 1, size, file);
    struct source source = {bytes, size};
    struct reader reader = {&source, 0, 0, 0};
    struct block block;
    uint64_t blocks = 0, pairs = 0;
    while (!read_block(&reader, argv[1][0], &block)) {
        blocks++;
        pairs += block.count;
    }
    printf("%llu blocks, %llu coefficients\n", (unsigned long long)blocks, (unsigned long long)pairs);
}
