/* mixed_cost TABLE [prefixes]: the least distortion of a table's versions where they may be mixed, so that of each time from a to d what is
 * due then fits the free slots of a window's room; with `prefixes`, of each time from the start to d alone. Tables have no audio.
 * Whole steps along lower hulls in the order of what they save for a packet, the room counted anew for each: n^2, nothing shared with ours.
 * gcc -O2 -o mixed_cost mixed_cost.c */
#include <stdio.h>
#include <stdlib.h>
#include <string.h>
typedef struct { long due; int n; long packets[8]; double distortion[8]; } Unit;
typedef struct { double saved; long packets; int unit, step; } Step;
static int by_due(const void *a, const void *b) { const Unit *x = a, *y = b; return x->due < y->due ? -1 : x->due > y->due; }
static int by_saving(const void *a, const void *b) {
    const Step *x = a, *y = b;
    double p = x->saved * y->packets, q = y->saved * x->packets;
    if (p != q) return p > q ? -1 : 1;
    return x->unit != y->unit ? (x->unit < y->unit ? -1 : 1) : x->step - y->step;
}
int main(int count, char **words) {
    FILE *table = fopen(words[1], "r");
    int prefixes = count > 2;
    char line[4096];
    Unit *units = calloc(40000, sizeof *units);
    long n = 0, slot = 0, programs = 0;
    while (fgets(line, sizeof line, table)) {
        if (sscanf(line, "slot %ld", &slot) == 1) continue;
        if (!strncmp(line, "program", 7)) programs++;
        if (!strncmp(line, "unit ", 5)) {
            Unit *u = &units[n++];
            char *p = line + 5;
            u->due = strtol(p, &p, 10);
            while (*p == ' ') { long bytes = strtol(p, &p, 10); p++; u->packets[u->n] = (bytes + 183) / 184; u->distortion[u->n++] = strtod(p, &p); }
        }
    }
    qsort(units, n, sizeof *units, by_due);
    long period = 1080000 / slot, reserved = 1 + 2 * programs;
#define FREE(s) ((s) / period * (period - reserved) + ((s) % period > reserved ? (s) % period - reserved : 0))
    long *above = malloc(n * sizeof *above), *below = malloc(n * sizeof *below), sent = 0, steps = 0;
    Step *step = malloc(n * 8 * sizeof *step);
    double cost = 0;
    for (long i = 0; i < n; i++) {
        Unit *u = &units[i];
        int at = 0;
        for (int k = 1; k < u->n; k++)
            if (u->packets[k] < u->packets[at] || (u->packets[k] == u->packets[at] && u->distortion[k] < u->distortion[at])) at = k;
        cost += u->distortion[at];
        long early = u->due - 27000000, first = early > 0 ? (early + slot - 1) / slot : 0;
        below[i] = prefixes ? (i ? -(1L << 50) : 0) : FREE(first) - sent;
        if (i == 0 && below[0] < 0) below[0] = 0;
        sent += u->packets[at];
        above[i] = FREE((u->due - 7200) / slot) - sent;
        for (int number = 1;; number++) {
            int best = -1;
            for (int k = 0; k < u->n; k++) {
                if (u->packets[k] <= u->packets[at] || u->distortion[k] >= u->distortion[at]) continue;
                double own = (u->distortion[at] - u->distortion[k]) / (u->packets[k] - u->packets[at]);
                double old = best < 0 ? -1 : (u->distortion[at] - u->distortion[best]) / (u->packets[best] - u->packets[at]);
                if (best < 0 || own > old || (own == old && u->packets[k] > u->packets[best])) best = k;
            }
            if (best < 0) break;
            step[steps++] = (Step){u->distortion[at] - u->distortion[best], u->packets[best] - u->packets[at], i, number};
            at = best;
        }
    }
    qsort(step, steps, sizeof *step, by_saving);
    for (long s = 0; s < steps; s++) {
        long x = step[s].unit, low = 1L << 60, high = -(1L << 60);
        for (long j = x; j < n; j++) if (above[j] < low) low = above[j];
        for (long i = 0; i <= x; i++) if (below[i] > high) high = below[i];
        long room = low - high, taken = step[s].packets < room ? step[s].packets : room;
        if (room < 0) { puts("no room"); return 1; }
        if (taken == 0) continue;
        cost -= step[s].saved * taken / step[s].packets;
        for (long j = x; j < n; j++) above[j] -= taken;
        for (long i = x + 1; i < n; i++) below[i] -= taken;
    }
    printf("%.4f\n", cost);
    return 0;
}
