/* all_windows TABLE PREFIX [CHOICE CERT]: the greatest bound that windows that see the buffers show together, whatever windows they are, to within what
 * 30 bytes more room would change: at the best weights of those that are known (Newton steps on a smoothed value) the windows are added that are charged
 * most over their room, until none is charged 30 bytes more. Of a table without audio, whose versions all fit. By docs/SCHEDULE.md, nothing shared with ours.
 * Writes what each version costs over its picture's cheapest to PREFIX.costs, and to PREFIX.000 to PREFIX.060 the cheapest choices at prices raised by 0 to
 * 15 %. With CHOICE, a number a line, it writes a certificate to CERT, which `remux check-plan` then checks.
 * gcc -O2 -o all_windows all_windows.c -lm */
#include "table.h"
#include <math.h>
typedef __int128 LL;
enum { MOSTW = 4096 };
static void refuse_large_versions(void) {
    for (int u = 0; u < units; u++)
        for (int k = 0; k < unit[u].count; k++)
            if (unit[u].bytes[k] > 2048 * vbv[unit[u].program]) {
                fprintf(stderr, "a version is larger than its buffer\n");
                exit(1);
            }
}
static L free_below(L x) {
    L r = 1 + 2 * programs, b = x % period - r;
    return x / period * (period - r) + (b > 0 ? b : 0);
}
static L stop(L x) { return x < 7200 ? 0 : (x - 7200) / slot; }
typedef struct {
    L m, d, i;
    int b;
} Window;
static L whole(L b) { return 184 * ((b + 183) / 184); }
static L charge(const Window *w, const Unit *u, int k) {
    if (u->due > w->d) return 0;
    if (w->m == 0 || u->due > (w->m - 1) * slot + 27000000) return stop(u->due) <= w->i ? whole(u->bytes[k]) : u->bytes[k];
    if (w->b >> u->program & 1 && u->due > w->m * slot) return u->bytes[k];
    return 0;
}
static L room(const Window *w) {
    L r = 184 * (free_below(w->i) - free_below(w->m));
    for (int p = 0; p < programs; p++) {
        if (w->m && w->b >> p & 1) r += 2048 * vbv[p];
        L last = 0;
        for (int u = first_of[p]; u < first_of[p + 1]; u++)
            if (unit[u].due <= w->d) last = unit[u].due;
        if (stop(last) > w->i) r += 940 * (last - 7200 - w->i * slot) / 13536;
    }
    return r;
}
static Window win[MOSTW];
static double lam[MOSTW];
static L room_of[MOSTW];
static int wins;
static int *touch_at, *touch_w;
static float *touch_c;
static int touches; /* per unit: windows and charges by version */
static void touch(void) {
    free(touch_w);
    free(touch_c);
    touches = 0;
    int cap = 1 << 16;
    touch_w = malloc(cap * sizeof(int));
    touch_c = malloc((size_t)cap * VERSIONS * sizeof(float));
    for (int u = 0; u < units; u++) {
        touch_at[u] = touches;
        for (int w = 0; w < wins; w++)
            if (charge(win + w, unit + u, 0)) {
                if (touches == cap) {
                    cap *= 2;
                    touch_w = realloc(touch_w, cap * sizeof(int));
                    touch_c = realloc(touch_c, (size_t)cap * VERSIONS * sizeof(float));
                }
                touch_w[touches] = w;
                for (int k = 0; k < unit[u].count; k++) touch_c[(size_t)touches * VERSIONS + k] = charge(win + w, unit + u, k);
                touches++;
            }
    }
    touch_at[units] = touches;
}
static double *X; /* units x VERSIONS */
static double smooth(const double *l, double mu, double *grad, double *hess, double *exact) {
    int n = wins;
    double v = 0, e = 0;
    if (grad)
        for (int w = 0; w < n; w++) grad[w] = -room_of[w];
    if (hess) memset(hess, 0, (size_t)n * n * sizeof(double));
    for (int w = 0; w < n; w++) {
        v -= l[w] * room_of[w];
        e -= l[w] * room_of[w];
    }
    for (int u = 0; u < units; u++) {
        int a = touch_at[u], b = touch_at[u + 1], K = unit[u].count;
        double c[VERSIONS], least = 1e300;
        for (int k = 0; k < K; k++) {
            c[k] = unit[u].distortion[k];
            for (int t = a; t < b; t++) c[k] += l[touch_w[t]] * touch_c[(size_t)t * VERSIONS + k];
            if (c[k] < least) least = c[k];
        }
        e += least;
        double s = 0, q[VERSIONS];
        for (int k = 0; k < K; k++) s += q[k] = exp((least - c[k]) / mu);
        v += least - mu * log(s);
        for (int k = 0; k < K; k++) {
            q[k] /= s;
            X[u * VERSIONS + k] = q[k];
        }
        if (!grad) continue;
        int few = 0;
        for (int k = 0; k < K; k++) few += q[k] > 1e-12;
        double mean[4096];
        for (int t = a; t < b; t++) {
            double x = 0;
            for (int k = 0; k < K; k++) x += q[k] * touch_c[(size_t)t * VERSIONS + k];
            mean[t - a] = x;
            grad[touch_w[t]] += x;
        }
        if (hess && few > 1)
            for (int t = a; t < b; t++)
                for (int r = a; r <= t; r++) {
                    double x = 0;
                    for (int k = 0; k < K; k++)
                        x += q[k] * (touch_c[(size_t)t * VERSIONS + k] - mean[t - a]) * (touch_c[(size_t)r * VERSIONS + k] - mean[r - a]);
                    hess[(size_t)touch_w[t] * n + touch_w[r]] += x / mu;
                }
    }
    if (exact) *exact = e;
    return v;
}
static void ascend(double mu0, double mu1, int *steps) {
    int n = wins;
    double *g = malloc(n * sizeof *g), *h = malloc((size_t)n * n * sizeof *h), *l = malloc(n * sizeof *l), *dir = malloc(n * sizeof *dir);
    int *act = malloc(n * sizeof *act);
    double *A = malloc((size_t)n * n * sizeof *A);
    for (double mu = mu0; mu >= mu1 * .99; mu /= 2)
        for (int it = 0; it < 25; it++) {
            (*steps)++;
            double v = smooth(lam, mu, g, h, NULL);
            int k = 0;
            double worst = 0;
            for (int w = 0; w < n; w++)
                if (lam[w] > 0 || g[w] > 0) {
                    act[k++] = w;
                    if (fabs(g[w]) > worst) worst = fabs(g[w]);
                }
            if (worst < 1) break;
            double top = 0;
            for (int i = 0; i < k; i++) {
                double x = h[(size_t)act[i] * n + act[i]];
                if (x > top) top = x;
            }
            for (int i = 0; i < k; i++) {
                for (int j = 0; j <= i; j++) A[(size_t)i * k + j] = h[(size_t)(act[i] > act[j] ? act[i] : act[j]) * n + (act[i] > act[j] ? act[j] : act[i])];
                A[(size_t)i * k + i] += 1e-6 * top + 1e-9;
                dir[i] = g[act[i]];
            }
            for (int i = 0; i < k; i++)
                for (int j = 0; j <= i; j++) {
                    double s = A[(size_t)i * k + j];
                    for (int r = 0; r < j; r++) s -= A[(size_t)i * k + r] * A[(size_t)j * k + r];
                    A[(size_t)i * k + j] = i == j ? sqrt(s > 1e-30 ? s : 1e-30) : s / A[(size_t)j * k + j];
                }
            for (int i = 0; i < k; i++) {
                double s = dir[i];
                for (int r = 0; r < i; r++) s -= A[(size_t)i * k + r] * dir[r];
                dir[i] = s / A[(size_t)i * k + i];
            }
            for (int i = k - 1; i >= 0; i--) {
                double s = dir[i];
                for (int r = i + 1; r < k; r++) s -= A[(size_t)r * k + i] * dir[r];
                dir[i] = s / A[(size_t)i * k + i];
            }
            double f = 1, gain = 0;
            int tries;
            for (tries = 0; tries < 30; tries++, f /= 2) {
                memcpy(l, lam, n * sizeof *l);
                for (int i = 0; i < k; i++) {
                    double x = lam[act[i]] + f * dir[i];
                    l[act[i]] = x > 0 ? x : 0;
                }
                gain = smooth(l, mu, NULL, NULL, NULL) - v;
                if (gain > 0) break;
            }
            if (tries == 30) { /* by the gradient alone */
                f = 1;
                for (tries = 0; tries < 60; tries++, f /= 2) {
                    memcpy(l, lam, n * sizeof *l);
                    for (int i = 0; i < k; i++) {
                        double x = lam[act[i]] + f * g[act[i]] / (h[(size_t)act[i] * n + act[i]] + 1e-3);
                        l[act[i]] = x > 0 ? x : 0;
                    }
                    gain = smooth(l, mu, NULL, NULL, NULL) - v;
                    if (gain > 0) break;
                }
                if (tries == 60) break;
            }
            memcpy(lam, l, n * sizeof *l);
            if (gain < 1e-7 * fabs(v)) break;
        }
    free(g);
    free(h);
    free(l);
    free(dir);
    free(act);
    free(A);
}
static int *order;
static int by_due(const void *a, const void *b) {
    L x = unit[*(const int *)a].due, y = unit[*(const int *)b].due;
    return x < y ? -1 : x > y;
}
static double *PB[PROGRAMS], *PW[PROGRAMS]; /* prefix sums per program over its units: bytes, whole packets */
/* how many units of p are due at most at x */
static int upto(int p, L x) {
    int lo = first_of[p], hi = first_of[p + 1];
    while (lo < hi) {
        int m = (lo + hi) / 2;
        if (unit[m].due <= x) lo = m + 1;
        else hi = m;
    }
    return lo - first_of[p];
}
typedef struct {
    double v;
    Window w;
} Found;
static int by_v(const void *a, const void *b) {
    double x = ((const Found *)a)->v, y = ((const Found *)b)->v;
    return x > y ? -1 : x < y;
}
static Found *found;
static int founds;
static int separate(double least, int most) {
    for (int p = 0; p < programs; p++) {
        PB[p][0] = PW[p][0] = 0;
        for (int u = first_of[p], j = 0; u < first_of[p + 1]; u++, j++) {
            double b = 0, w = 0;
            for (int k = 0; k < unit[u].count; k++) {
                b += X[u * VERSIONS + k] * unit[u].bytes[k];
                w += X[u * VERSIONS + k] * whole(unit[u].bytes[k]);
            }
            PB[p][j + 1] = PB[p][j] + b;
            PW[p][j + 1] = PW[p][j] + w;
        }
    }
    founds = 0;
    /* for each end, the best window over beginnings and tails */
    for (int e = 0; e < units; e++) {
        L d = unit[order[e]].due;
        if (e + 1 < units && unit[order[e + 1]].due == d) continue;
        int ud[PROGRAMS];
        L lastdue[PROGRAMS];
        L tails[64];
        int nt = 0;
        tails[nt++] = stop(d);
        for (int p = 0; p < programs; p++) {
            ud[p] = upto(p, d);
            lastdue[p] = ud[p] ? unit[first_of[p] + ud[p] - 1].due : 0;
            if (ud[p] && lastdue[p] < d) tails[nt++] = stop(lastdue[p]);
        }
        {
            L t = stop(d), r = 1 + 2 * programs;
            L a = t / period * period;
            if (a + r <= t) tails[nt++] = a + r;
            tails[nt++] = a;
            if (a >= period) { tails[nt++] = a - period + r; }
        }
        double tailcost[64];
        int ui[64][PROGRAMS];
        L leak[64];
        for (int t = 0; t < nt; t++) {
            leak[t] = 0;
            tailcost[t] = 0;
            for (int p = 0; p < programs; p++) {
                if (stop(lastdue[p]) > tails[t]) leak[t] += 940 * (lastdue[p] - 7200 - tails[t] * slot) / 13536;
                int x = upto(p, tails[t] * slot + 7200 + slot - 1);
                if (x > ud[p]) x = ud[p];
                ui[t][p] = x;
                tailcost[t] += PB[p][ud[p]] - PB[p][x];
            }
        }
        Found best[3];
        for (int q = 0; q < 3; q++) best[q].v = least;
        for (int a = -1; a <= e; a++) {
            L m = a < 0 ? 0 : (unit[order[a]].due - 1) / slot;
            if (m * slot >= d) continue;
            if (a >= 0 && m == 0) continue;
            L h = (m - 1) * slot + 27000000;
            double held = 0;
            L buf = 0;
            int b = 0;
            int uh[PROGRAMS];
            if (m)
                for (int p = 0; p < programs; p++) {
                    int x = upto(p, m * slot), y = upto(p, h);
                    if (x > ud[p]) x = ud[p];
                    if (y > ud[p]) y = ud[p];
                    uh[p] = y;
                    double q = PB[p][y] - PB[p][x];
                    if (q > 2048 * vbv[p]) {
                        b |= 1 << p;
                        held += q;
                        buf += 2048 * vbv[p];
                    }
                }
            else
                for (int p = 0; p < programs; p++) uh[p] = 0;
            for (int t = 0; t < nt; t++) {
                if (tails[t] < m) continue;
                double c = held;
                for (int p = 0; p < programs; p++) {
                    if (ui[t][p] > uh[p]) c += PW[p][ui[t][p]] - PW[p][uh[p]];
                    int z = ui[t][p] > uh[p] ? ui[t][p] : uh[p];
                    c += PB[p][ud[p]] - PB[p][z];
                }
                double v = c - (184 * (free_below(tails[t]) - free_below(m)) + buf + leak[t]);
                if (v > best[2].v) {
                    best[2].v = v;
                    best[2].w = (Window){m, d, tails[t], b};
                    if (best[2].v > best[1].v) {
                        Found f = best[2];
                        best[2] = best[1];
                        best[1] = f;
                    }
                    if (best[1].v > best[0].v) {
                        Found f = best[1];
                        best[1] = best[0];
                        best[0] = f;
                    }
                }
            }
        }
        for (int q = 0; q < 3; q++)
            if (best[q].v > least) found[founds++] = best[q];
    }
    qsort(found, founds, sizeof *found, by_v);
    int added = 0;
    for (int f = 0; f < founds && added < most && wins < MOSTW; f++) {
        int dup = 0;
        for (int w = 0; w < wins; w++) dup |= win[w].m == found[f].w.m && win[w].d == found[f].w.d && win[w].i == found[f].w.i && win[w].b == found[f].w.b;
        if (dup) continue;
        win[wins] = found[f].w;
        lam[wins] = 0;
        room_of[wins++] = room(&found[f].w);
        added++;
    }
    return added;
}
static LL exact_value(const L *l) {
    LL v = 0;
    for (int u = 0; u < units; u++) {
        LL least = 0;
        for (int k = 0; k < unit[u].count; k++) {
            LL c = (LL)47104 * unit[u].distortion[k];
            for (int t = touch_at[u]; t < touch_at[u + 1]; t++) c += (LL)l[touch_w[t]] * charge(win + touch_w[t], unit + u, k);
            if (!k || c < least) least = c;
        }
        v += least;
    }
    for (int w = 0; w < wins; w++) v -= (LL)l[w] * room_of[w];
    return v;
}
static int by_order(const void *a, const void *b) {
    const Window *x = win + *(const int *)a, *y = win + *(const int *)b;
    if (x->d != y->d) return x->d < y->d ? -1 : 1;
    if (x->m != y->m) return x->m < y->m ? -1 : 1;
    if (x->i != y->i) return x->i < y->i ? -1 : 1;
    return x->b - y->b;
}
static void put(FILE *f, unsigned long long v, int k) {
    while (k--) fputc(v >> 8 * k & 255, f);
}
int main(int argc, char **argv) {
    read_table(argv[1]);
    refuse_large_versions();
    touch_at = malloc((units + 1) * sizeof(int));
    X = malloc(units * VERSIONS * sizeof *X);
    order = malloc(units * sizeof *order);
    found = malloc((3 * units + 3) * sizeof *found);
    for (int u = 0; u < units; u++) order[u] = u;
    qsort(order, units, sizeof *order, by_due);
    for (int p = 0; p < programs; p++) {
        PB[p] = malloc((units + 1) * sizeof(double));
        PW[p] = malloc((units + 1) * sizeof(double));
    }
    int rounds = 40;
    double e = 0;
    touch();
    for (int r = 0; r < rounds; r++) {
        int steps = 0;
        if (wins) ascend(r < 3 ? 4000 : 500, r + 1 == rounds ? 2 : 60, &steps);
        smooth(lam, 60, NULL, NULL, NULL);
        smooth(lam, 60, NULL, NULL, &e);
        if (r + 1 == rounds) break;
        if (wins > 150) {
            int n = 0;
            for (int w = 0; w < wins; w++)
                if (lam[w] > 1e-6) {
                    win[n] = win[w];
                    lam[n] = lam[w];
                    room_of[n++] = room_of[w];
                }
            wins = n;
        }
        int added = separate(30, 12);
        touch();
        if (!added && r + 2 < rounds) r = rounds - 2;
    }
    L *l = malloc(wins * sizeof *l);
    for (int w = 0; w < wins; w++) {
        double x = lam[w] * 47104;
        l[w] = x < 0 ? 0 : x > 1099511627776.0 ? 1099511627776LL : (L)(x + .5);
    }
    LL v = exact_value(l);
    L bound = v <= 0 ? 0 : (v + 47103) / 47104;
    printf("bound %lld\n", bound);
    for (int w = 0; w < wins; w++)
        if (l[w] > 0) printf("window from slot %lld, due %lld, programs %02x, tail %lld, weight %lld\n", win[w].m, win[w].d, win[w].b, win[w].i, l[w]);
    {
        char name[300];
        snprintf(name, sizeof name, "%s.costs", argv[2]);
        FILE *g = fopen(name, "w");
        for (int u = 0; u < units; u++) {
            double c[VERSIONS], least = 1e300;
            for (int k = 0; k < unit[u].count; k++) {
                c[k] = unit[u].distortion[k];
                for (int t = touch_at[u]; t < touch_at[u + 1]; t++) c[k] += lam[touch_w[t]] * touch_c[(size_t)t * VERSIONS + k];
                if (c[k] < least) least = c[k];
            }
            for (int k = 0; k < unit[u].count; k++) fprintf(g, "%.0f ", c[k] - least);
            fputs("\n", g);
        }
        fclose(g);
    }
    for (int q = 0; q <= 60; q++) {
        double f = 1 + q * .0025;
        char name[300];
        snprintf(name, sizeof name, "%s.%03d", argv[2], q);
        FILE *g = fopen(name, "w");
        for (int u = 0; u < units; u++) {
            double least = 1e300;
            int c = 0;
            for (int k = 0; k < unit[u].count; k++) {
                double x = unit[u].distortion[k];
                for (int t = touch_at[u]; t < touch_at[u + 1]; t++) x += f * lam[touch_w[t]] * touch_c[(size_t)t * VERSIONS + k];
                if (x < least) least = x, c = k;
            }
            fprintf(g, "%d\n", c);
        }
        fclose(g);
    }
    if (argc > 4) {
        FILE *f = fopen(argv[3], "r");
        unsigned char *c = malloc(units);
        L D = 0;
        for (int u = 0; u < units; u++) {
            int x;
            if (fscanf(f, "%d", &x) != 1) return 2;
            c[u] = x;
            D += unit[u].distortion[x];
        }
        fclose(f);
        int n = 0, *o = malloc(wins * sizeof *o);
        for (int w = 0; w < wins; w++)
            if (l[w] > 0) o[n++] = w;
        qsort(o, n, sizeof *o, by_order);
        f = fopen(argv[4], "wb");
        fputs("RMXC\3", f);
        put(f, bound, 8);
        put(f, D, 8);
        put(f, units, 4);
        fwrite(c, 1, units, f);
        put(f, 1, 4);
        put(f, 6, 1);
        put(f, n, 2);
        for (int j = 0; j < n; j++) {
            Window *w = win + o[j];
            put(f, w->m, 4);
            put(f, w->d, 8);
            put(f, w->b, 1);
            put(f, w->i, 4);
            put(f, l[o[j]], 8);
        }
        fclose(f);
        printf("distortion %lld gap %.3f %%\n", D, 100.0 * (D - bound) / D);
    }
}
