// The floor beside `bench_streams mux`: the same schedule's slots, each a header and 184 bytes that are copied into a packet, handed to a
// sink that counts. It makes no tables, stuffs nothing and looks nothing up: copy_packets SLOTS.
#include <stdint.h>
#include <stdio.h>
#include <stdlib.h>
#include <string.h>

static uint64_t counted;

__attribute__((noinline)) static void put(const uint8_t *packet, size_t n) {
    __asm__ volatile("" : : "r"(packet) : "memory");
    counted += n;
}

__attribute__((noinline)) static void piece(uint32_t n, uint8_t *into) {
    memset(into, (int)(n % 256), 184);
}

int main(int argc, char **argv) {
    uint32_t slots = argc > 1 ? (uint32_t)strtoul(argv[1], 0, 10) : 0;
    uint8_t counters[128] = {0};
    for (uint32_t n = 0; n < slots; n++) {
        uint8_t buffer[184], packet[188];
        uint32_t pid = 0x101 + n % 16;
        piece(n, buffer);
        packet[0] = 0x47;
        packet[1] = (uint8_t)(pid >> 8 | (n % 10 == 0 ? 0x40 : 0));
        packet[2] = (uint8_t)pid;
        packet[3] = (uint8_t)(0x10 | (counters[pid - 0x100]++ & 15));
        memcpy(packet + 4, buffer, 184);
        put(packet, 188);
    }
    printf("%llu bytes\n", (unsigned long long)counted);
    return 0;
}
