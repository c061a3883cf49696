/* Tables without audio, read from their text (docs/TABLE.md): for all_windows and better_choice. */
#include <stdio.h>
#include <stdlib.h>
#include <string.h>
typedef long long L;
enum { PROGRAMS = 8, VERSIONS = 8 };
typedef struct {
    int program, count;
    L due;
    L bytes[VERSIONS], distortion[VERSIONS];
} Unit;
static Unit *unit;
static int units, programs;
static L slot, vbv[PROGRAMS], period;
static int first_of[PROGRAMS + 1]; /* units of a program stand together, in the table's order */
static void read_table(const char *name) {
    FILE *f = fopen(name, "r");
    char *line = NULL;
    size_t room = 0;
    int capacity = 0;
    if (!f) {
        perror(name);
        exit(1);
    }
    while (getline(&line, &room, f) > 0) {
        if (sscanf(line, "slot %lld", &slot) == 1) continue;
        if (!strncmp(line, "program ", 8)) {
            first_of[programs] = units;
            vbv[programs++] = atoll(line + 8);
            continue;
        }
        if (!strncmp(line, "audio", 5)) {
            fprintf(stderr, "no audio\n");
            exit(1);
        }
        if (strncmp(line, "unit ", 5)) continue;
        if (units == capacity) unit = realloc(unit, (capacity = capacity ? 2 * capacity : 1024) * sizeof *unit);
        Unit *x = unit + units++;
        char *at = line + 5;
        x->program = programs - 1;
        x->due = strtoll(at, &at, 10);
        x->count = 0;
        while (*at == ' ') {
            x->bytes[x->count] = strtoll(at + 1, &at, 10);
            x->distortion[x->count++] = strtoll(at + 1, &at, 10);
        }
    }
    first_of[programs] = units;
    fclose(f);
    period = 1080000 / slot;
}
