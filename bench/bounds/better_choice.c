/* better_choice TABLE PREFIX SECONDS SEED OUT [ORDER]: a choice of less distortion under the slot rule, from the cheapest choices of all_windows: the first that
 * is scheduled, then up to four versions at a time changed by chance, those mostly that cost little over the cheapest (PREFIX.costs), and kept where the choice
 * is scheduled and isn't much worse, less so as the seconds of processor time go by. With ORDER `left` that head goes first whose due time, less what MB takes for
 * what is left of its picture, is least, in place of the one that is due first: another rule, for which the windows hold as well. Of a table without audio. By
 * docs/SCHEDULE.md, nothing shared with ours.
 * gcc -O2 -o better_choice better_choice.c -lm */
#include "table.h"
#include <math.h>
#include <time.h>
static L S; /* subticks of a slot */
static double LAX;                 /* 0: by due; 14.4: by the least time that is left */
typedef struct {
    int u, out_u;
    int sent, pad;
    L held, wt, mt;
} Stream; /* wt, mt: subticks at which TB and MB are empty */
typedef struct {
    Stream s[PROGRAMS];
} State;
static int step = 512;
static State *mark, *trial_mark;
static unsigned char *choice;
static L runs, slots_run;
static int bytes_now[1 << 20];
static int miss_u;
static L miss_slot;
#define FAR 2000000000
static int run(int from, int valid, L last_due, int *end_mark, int *joined) {
    State z = mark[from];
    L n = (L)from * step;
    int k = from, left = 0;
    runs++;
    *joined = 0;
    L n0 = n;
    int rdy[PROGRAMS], hd[PROGRAMS], ord[PROGRAMS], pay[PROGRAMS];
    for (int p = 0; p < PROGRAMS; p++) rdy[p] = hd[p] = ord[p] = FAR;
    int low = FAR;
    L over;
#define READY(p)                                                                                                                                             \
    do {                                                                                                                                                     \
        Stream *x = z.s + p;                                                                                                                                 \
        if (x->u == first_of[p + 1]) {                                                                                                                       \
            rdy[p] = hd[p] = ord[p] = FAR;                                                                                                                   \
        } else {                                                                                                                                             \
            int u = x->u;                                                                                                                                    \
            hd[p] = unit[u].due;                                                                                                                             \
            ord[p] = hd[p] - (int)(LAX * (bytes_now[u] - x->sent));                                                                                          \
            int q = bytes_now[u] - x->sent;                                                                                                                  \
            if (q > 184) q = 184;                                                                                                                            \
            pay[p] = q;                                                                                                                                      \
            L t = x->wt - 128 * 11280LL, t2 = x->mt - (239376 - 2048 * vbv[p] - 1024) * 13536, t3 = 940 * (unit[u].due - 27000000);                          \
            if (t2 > t) t = t2;                                                                                                                              \
            if (t3 > t) t = t3;                                                                                                                              \
            if (x->held + q > 2048 * vbv[p]) {                                                                                                               \
                while (x->out_u < u && unit[x->out_u].due <= n * slot) {                                                                                     \
                    x->held -= bytes_now[x->out_u];                                                                                                          \
                    x->out_u++;                                                                                                                              \
                }                                                                                                                                            \
                L held = x->held;                                                                                                                            \
                int o = x->out_u;                                                                                                                            \
                L rel = 0;                                                                                                                                   \
                while (held + q > 2048 * vbv[p] && o < u) {                                                                                                  \
                    held -= bytes_now[o];                                                                                                                    \
                    rel = unit[o].due;                                                                                                                       \
                    o++;                                                                                                                                     \
                }                                                                                                                                            \
                if (held + q > 2048 * vbv[p]) t = 2000000000LL * S;                                                                                          \
                else if (940 * rel > t) t = 940 * rel;                                                                                                       \
            }                                                                                                                                                \
            rdy[p] = t <= 0 ? 0 : t / S >= FAR ? FAR : (int)((t + S - 1) / S);                                                                               \
        }                                                                                                                                                    \
    } while (0)
    for (int p = 0; p < programs; p++) {
        left += z.s[p].u < first_of[p + 1];
        READY(p);
        if (hd[p] < low) low = hd[p];
    }
    over = (low - 7200) / slot;
    L offset = n % period;
    L next = n + step;
    int ok = 1;
    while (left) {
        if (n >= next) { /* never past it: jumps end there */
            k++;
            next += step;
            State y = z;
            for (int p = 0; p < programs; p++) {
                Stream *x = y.s + p;
                while (x->out_u < x->u && unit[x->out_u].due <= n * slot) {
                    x->held -= bytes_now[x->out_u];
                    x->out_u++;
                }
                if (x->wt < n * S) x->wt = n * S;
                if (x->mt < n * S) x->mt = n * S;
            }
            if (k < valid && n * slot >= last_due && !memcmp(&y, mark + k, sizeof y)) {
                *end_mark = k;
                *joined = 1;
                break;
            }
            trial_mark[k] = y;
        }
        if (offset <= 2 * programs) {
            if (offset > programs) {
                int p = offset - programs - 1;
                Stream *x = z.s + p;
                if (x->wt < n * S) x->wt = n * S;
                x->wt += 188 * 11280;
                if (rdy[p] < FAR) {
                    L t = (x->wt - 128 * 11280LL + S - 1) / S;
                    if (t > rdy[p]) rdy[p] = t;
                }
            }
        } else {
            int b = -1, bd = FAR, first = FAR;
            for (int p = 0; p < PROGRAMS; p++) {
                if (rdy[p] <= n && ord[p] < bd) {
                    bd = ord[p];
                    b = p;
                }
                if (rdy[p] < first) first = rdy[p];
            }
            if (b < 0) {
                L to = first < n + 1 ? n + 1 : first;
                L q = n - offset + period;
                if (q < to) to = q;
                if (next < to) to = next;
                if (over < to) to = over > n ? over : n + 1;
                offset += to - 1 - n;
                n = to - 1;
            } else {
                Stream *x = z.s + b;
                int q = pay[b];
                if (x->wt < n * S) x->wt = n * S;
                x->wt += 188 * 11280;
                if (x->mt < n * S) x->mt = n * S;
                x->mt += q * 13536LL;
                x->held += q;
                x->sent += q;
                L e = (n + 1) * S, w = x->mt > e ? x->mt : e;
                if (w + 6768000 > 940LL * hd[b]) {
                    miss_u = x->u;
                    miss_slot = n;
                    ok = 0;
                    break;
                }
                if (x->sent == bytes_now[x->u]) {
                    x->u++;
                    x->sent = 0;
                    left -= x->u == first_of[b + 1];
                    READY(b);
                    low = FAR;
                    for (int p = 0; p < PROGRAMS; p++)
                        if (hd[p] < low) low = hd[p];
                    over = low == FAR ? 1LL << 60 : (low - 7200) / slot;
                } else READY(b);
            }
        }
        if (n >= over && (n + 1) * slot + 7200 > low && left) {
            for (int p = 0; p < programs; p++)
                if (hd[p] == low) {
                    miss_u = z.s[p].u;
                    break;
                }
            miss_slot = n;
            ok = 0;
            break;
        }
        n++;
        if (++offset == period) offset = 0;
    }
    slots_run += n - n0;
    if (!*joined) *end_mark = k + 1;
    return ok;
}
/* the last mark at which nothing of unit u went */
static int mark_before(int u, int valid) {
    int p = unit[u].program, lo = 0, hi = valid;
    while (hi - lo > 1) {
        int m = (lo + hi) / 2;
        Stream *x = mark[m].s + p;
        if (x->u < u || (x->u == u && x->sent == 0)) lo = m;
        else hi = m;
    }
    return lo;
}
static void load(const unsigned char *c) {
    for (int u = 0; u < units; u++) bytes_now[u] = unit[u].bytes[c[u]];
}
static unsigned long long seed;
static double draw(void) {
    seed ^= seed << 13;
    seed ^= seed >> 7;
    seed ^= seed << 17;
    return (seed >> 11) / 9007199254740992.0;
}
static L total(const unsigned char *c) {
    L s = 0;
    for (int u = 0; u < units; u++) s += unit[u].distortion[c[u]];
    return s;
}
static int by_due(const void *a, const void *b) {
    L x = unit[*(const int *)a].due, y = unit[*(const int *)b].due;
    return x < y ? -1 : x > y;
}

int main(int argc, char **argv) {
    read_table(argv[1]);
    S = 940 * slot;
    if (argc > 6) LAX = 14.4;
    double seconds = atof(argv[3]);
    seed = 88172645463325252ULL + 7919 * atoll(argv[4]);
    for (int i = 0; i < 20; i++) draw();
    L last = 0;
    for (int u = 0; u < units; u++)
        if (unit[u].due > last) last = unit[u].due;
    int most = last / slot / step + 3;
    mark = calloc(most, sizeof *mark);
    trial_mark = calloc(most, sizeof *mark);
    for (int p = 0; p < programs; p++) mark[0].s[p].u = mark[0].s[p].out_u = first_of[p];
    choice = calloc(units, 1);
    unsigned char *best = malloc(units);
    int em, j, valid = 1;
    double *r = malloc(units * VERSIONS * sizeof *r);
    char name[300];
    snprintf(name, sizeof name, "%s.costs", argv[2]);
    FILE *f = fopen(name, "r");
    for (int u = 0; u < units; u++)
        for (int k = 0; k < unit[u].count; k++)
            if (fscanf(f, "%lf", r + u * VERSIONS + k) != 1) return 2;
    fclose(f);
    int q;
    for (q = 0; q <= 60; q += 2) {
        snprintf(name, sizeof name, "%s.%03d", argv[2], q);
        f = fopen(name, "r");
        for (int u = 0; u < units; u++) {
            int v;
            if (fscanf(f, "%d", &v) != 1) exit(2);
            choice[u] = v;
        }
        fclose(f);
        if (load(choice), run(0, 0, 0, &em, &j)) break;
    }
    if (q > 60) {
        puts("none of the cheapest choices is scheduled");
        return 1;
    }
    memcpy(mark + 1, trial_mark + 1, (em - 1) * sizeof *mark);
    valid = em;
    int *order = malloc(units * sizeof *order), *place = malloc(units * sizeof *place);
    for (int u = 0; u < units; u++) order[u] = u;
    qsort(order, units, sizeof *order, by_due);
    for (int i = 0; i < units; i++) place[order[i]] = i;
    L now = total(choice), least = now;
    memcpy(best, choice, units);
    printf("start %lld\n", now);
    clock_t begin = clock();
    double hot = units < 500 ? 3000 : 1500, cold = 200;
    for (L it = 0;; it++) {
        double part = (double)(clock() - begin) / CLOCKS_PER_SEC / seconds;
        if (part >= 1) break;
        double heat = hot * pow(cold / hot, part);
        int changed[6], count = 0;
        unsigned char old[6], news[6];
        L delta = 0, need = 0;
        int parts = 1 + (int)(draw() * 4);
        for (int e = 0; e < parts; e++) {
            int u = 0, v = 0, tries;
            for (tries = 0; tries < 60; tries++) {
                if (e == 0 || draw() < .3) u = draw() * units;
                else {
                    int w = place[changed[0]] + (int)((draw() * 2 - 1) * 80);
                    if (w < 0 || w >= units) continue;
                    u = order[w];
                }
                v = draw() * unit[u].count;
                if (v == choice[u]) continue;
                double c = r[u * VERSIONS + v] - r[u * VERSIONS + choice[u]];
                if (c > 0 && c > -log(draw()) * 30000) continue;
                int dup = 0;
                for (int i = 0; i < count; i++) dup |= changed[i] == u;
                if (!dup) break;
            }
            if (tries == 60) continue;
            news[count] = v;
            changed[count] = u;
            old[count++] = choice[u];
            delta += unit[u].distortion[v] - unit[u].distortion[choice[u]];
            need += unit[u].bytes[v] - unit[u].bytes[choice[u]];
        }
        if (!count || (delta > 0 && (need >= 0 || delta > -heat * log(draw()))) || need > 12000) continue;
        int from = 1 << 30;
        L last_due = 0;
        for (int i = 0; i < count; i++) {
            choice[changed[i]] = news[i];
            bytes_now[changed[i]] = unit[changed[i]].bytes[news[i]];
            int m = mark_before(changed[i], valid);
            if (m < from) from = m;
            if (unit[changed[i]].due > last_due) last_due = unit[changed[i]].due;
        }
        if (run(from, valid, last_due, &em, &j)) {
            memcpy(mark + from + 1, trial_mark + from + 1, (em - from - 1 > 0 ? em - from - 1 : 0) * sizeof *mark);
            if (!j) valid = em;
            now += delta;
            if (now < least) {
                least = now;
                memcpy(best, choice, units);
            }
        } else
            for (int i = 0; i < count; i++) choice[changed[i]] = old[i], bytes_now[changed[i]] = unit[changed[i]].bytes[old[i]];
    }
    int ok = (load(best), run(0, 0, 0, &em, &j));
    printf("distortion %lld, %s, of %lld runs\n", total(best), ok ? "scheduled" : "missed", runs);
    if (ok) {
        f = fopen(argv[5], "w");
        for (int u = 0; u < units; u++) fprintf(f, "%d\n", best[u]);
        fclose(f);
    }
}
