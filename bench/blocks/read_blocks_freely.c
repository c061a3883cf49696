/* Reads blocks as freely as C may: read_blocks_freely n|i|o FILE. 64 bits at a time, one table by 17 bits with signs. */
#include <stdint.h>
#include <stdio.h>
#include <stdlib.h>
#include <string.h>

struct row {
    unsigned symbol, bits, len;
};
#include "tables.h"

enum { NONE, PAIR, END, ESCAPED };

struct entry {
    uint8_t len, run, level, kind;
};
static struct entry zero[131072], one[131072], first_zero[131072];
static struct {
    uint8_t len, size;
} dc_sizes[512];

static void set(struct entry *table, uint32_t bits, int len, struct entry e) {
    e.len = len;
    for (uint32_t k = 0; k < 1u << (17 - len); k++)
        table[(bits << (17 - len)) + k] = e;
}

static void build(struct entry *to, const struct row *table, int rows) {
    for (int i = 0; i < rows; i++) {
        unsigned symbol = table[i].symbol;
        struct entry e = {0, symbol / 64, symbol % 64, symbol == 4000 ? END : symbol == 4001 ? ESCAPED : PAIR};
        if (e.kind != PAIR) {
            set(to, table[i].bits, table[i].len, e);
            continue;
        }
        set(to, table[i].bits * 2, table[i].len + 1, e);
        e.level = -e.level;
        set(to, table[i].bits * 2 + 1, table[i].len + 1, e);
    }
}

struct reader {
    const uint8_t *bytes, *end;
    uint64_t word;
    int held;
};

static inline void refill(struct reader *r) {
    if (r->end - r->bytes >= 8) {
        uint64_t next;
        memcpy(&next, r->bytes, 8);
        r->word |= __builtin_bswap64(next) >> r->held;
        int count = (63 - r->held) >> 3;
        r->bytes += count;
        r->held += count * 8;
    } else {
        while (r->held <= 56 && r->bytes < r->end) {
            r->word |= (uint64_t)*r->bytes++ << (56 - r->held);
            r->held += 8;
        }
    }
}

static inline void skip(struct reader *r, int len) {
    r->word <<= len;
    r->held -= len;
}

struct pair {
    uint8_t run;
    int16_t level;
};
struct block {
    int has_dc, size, bits, count;
    struct pair pairs[64];
};

__attribute__((noinline)) static int read_block(struct reader *restrict from, int kind, struct block *restrict b) {
    struct reader r = *from;
    int place = 0, count = 0, bad = 1;
    const struct entry *table = kind == 'n' ? first_zero : kind == 'i' ? zero : one;
    const struct entry *later = kind == 'n' ? zero : table;
    b->has_dc = 0;
    if (r.held < 32)
        refill(&r);
    if (kind != 'n') {
        int at = r.word >> 55, len = dc_sizes[at].len, size = dc_sizes[at].size;
        if (!len || len + size > r.held)
            goto out;
        skip(&r, len);
        b->has_dc = 1;
        b->size = size;
        b->bits = size ? r.word >> (64 - size) : 0;
        skip(&r, size);
        place = 1;
    }
    for (;;) {
        if (r.held < 32)
            refill(&r);
        struct entry e = table[r.word >> 47];
        table = later;
        if (__builtin_expect(e.kind == PAIR, 1)) {
            place += e.run;
            if (place > 63 || e.len > r.held)
                goto out;
            b->pairs[count].run = e.run;
            b->pairs[count++].level = (int8_t)e.level;
            skip(&r, e.len);
            place++;
        } else if (e.kind == END) {
            if (e.len > r.held)
                goto out;
            skip(&r, e.len);
            bad = 0;
            goto out;
        } else if (e.kind == ESCAPED) {
            int run = (r.word >> 52) & 63, level = (r.word >> 40) & 4095;
            place += run;
            if (place > 63 || r.held < 24 || level == 0 || level == 2048)
                goto out;
            if (level > 2048)
                level -= 4096;
            b->pairs[count].run = run;
            b->pairs[count++].level = level;
            skip(&r, 24);
            place++;
        } else {
            goto out;
        }
    }
out:
    *from = r;
    b->count = count;
    return bad;
}

int main(int argc, char **argv) {
    build(zero, coeff_zero, 113);
    build(first_zero, coeff_first, 112);
    build(one, coeff_one, 113);
    for (int i = 0; i < 12; i++)
        for (int k = 0, len = dc_luma[i].len; k < 1 << (9 - len); k++) {
            dc_sizes[(dc_luma[i].bits << (9 - len)) + k].len = len;
            dc_sizes[(dc_luma[i].bits << (9 - len)) + k].size = dc_luma[i].symbol;
        }
    FILE *file = fopen(argv[argc - 1], "rb");
    fseek(file, 0, SEEK_END);
    long size = ftell(file);
    rewind(file);
    uint8_t *bytes = malloc(size);
    size = fread(bytes, 1, size, file);
    struct reader reader = {bytes, bytes + size, 0, 0};
    struct block block;
    uint64_t blocks = 0, pairs = 0;
    while (!read_block(&reader, argv[1][0], &block)) {
        blocks++;
        pairs += block.count;
    }
    printf("%llu blocks, %llu coefficients\n", (unsigned long long)blocks, (unsigned long long)pairs);
}
