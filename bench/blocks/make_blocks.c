/* Makes coded blocks of coefficients by a seeded generator: make_blocks n|i|o BYTES FILE [PAIRS].
 * n: non-intra; i: intra by Table B-14; o: intra by Table B-15. PAIRS is about how many coefficients a block has. */
#include <stdint.h>
#include <stdio.h>
#include <stdlib.h>

struct row {
    unsigned symbol, bits, len;
};
#include "tables.h"

enum { END_OF_BLOCK = 4000, ESCAPE = 4001 };

static FILE *out;
static uint64_t bits_out, byte_bits;
static int byte_len;

static void put(uint32_t value, int len) {
    bits_out += len;
    for (int i = len - 1; i >= 0; i--) {
        byte_bits = byte_bits << 1 | ((value >> i) & 1);
        if (++byte_len == 8) {
            fputc(byte_bits & 255, out);
            byte_len = 0;
            byte_bits = 0;
        }
    }
}

static uint64_t seed = 88172645463325252ull;

static double next_random(void) {
    seed ^= seed << 13;
    seed ^= seed >> 7;
    seed ^= seed << 17;
    return (seed >> 11) * (1.0 / 9007199254740992.0);
}

static int row_of(const struct row *table, int rows, unsigned symbol) {
    for (int i = 0; i < rows; i++)
        if (table[i].symbol == symbol)
            return i;
    return -1;
}

static void put_symbol(const struct row *table, int rows, unsigned symbol) {
    int i = row_of(table, rows, symbol);
    put(table[i].bits, table[i].len);
}

static void put_pair(const struct row *table, int rows, int run, int size, int negative) {
    int i = run < 32 && size < 64 ? row_of(table, rows, run * 64 + size) : -1;
    if (i >= 0) {
        put(table[i].bits * 2 + negative, table[i].len + 1);
        return;
    }
    put_symbol(table, rows, ESCAPE);
    put(run, 6);
    put(negative ? 4096 - size : size, 12);
}

int main(int argc, char **argv) {
    int kind = argv[1][0];
    uint64_t want = atol(argv[2]);
    out = fopen(argv[3], "wb");
    double stop = 1 / ((argc > 4 ? atof(argv[4]) : 6) + 1);
    uint64_t blocks = 0, pairs = 0;
    const struct row *table = kind == 'o' ? coeff_one : coeff_zero;
    while (bits_out / 8 < want) {
        int place = 0, first = 1;
        if (kind != 'n') {
            int size = (int)(next_random() * next_random() * 8);
            put_symbol(dc_luma, 12, size);
            if (size)
                put((uint32_t)(next_random() * (1 << size)), size);
            place = 1;
            first = 0;
        }
        while (place < 64) {
            if (!(kind == 'n' && first) && next_random() < stop)
                break;
            int run = 0, size = 1;
            while (next_random() < .5 && run < 63)
                run++;
            if (place + run > 63)
                break;
            while (next_random() < .4 && size < 2047)
                size++;
            int negative = next_random() < .5;
            if (kind == 'n' && place == 0)
                put_pair(coeff_first, 112, run, size, negative);
            else
                put_pair(table, 113, run, size, negative);
            place += run + 1;
            first = 0;
            pairs++;
        }
        if (kind == 'n' && place == 0) {
            put(2, 2);
            pairs++;
        }
        put_symbol(table, 113, END_OF_BLOCK);
        blocks++;
    }
    printf("%llu bits, %llu blocks, %llu coefficients\n", (unsigned long long)bits_out, (unsigned long long)blocks, (unsigned long long)pairs);
    while (byte_len)
        put(0, 1);
    fclose(out);
    return 0;
}
