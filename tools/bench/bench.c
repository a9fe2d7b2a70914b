/* Times libdbus, GLib and signature_validate on the texts of a file, one per line. Writes a line for each: its name, a tab
   and the nanoseconds of processor time per text, the least of 15 rounds.
   usage: bench FILE */
#include <dbus/dbus.h>
#include <glib.h>
#include <stdint.h>
#include <stdio.h>
#include <stdlib.h>
#include <string.h>
#include <sys/types.h>
#include <time.h>

/* The exported function of crates/export. */
struct reply { uint8_t refusal, cause; size_t place; };
struct reply signature_validate(const uint8_t *text, size_t length);

enum { MOST = 1000, ROUNDS = 15 };

static char *texts[MOST];
static int count;
static long sum; /* so that no answer is thrown away */

static double now(void) {
    struct timespec t;
    clock_gettime(CLOCK_PROCESS_CPUTIME_ID, &t);
    return t.tv_sec * 1e9 + t.tv_nsec;
}

static int libdbus(const char *text) { return dbus_signature_validate(text, NULL); }
static int glib(const char *text) { return g_variant_type_string_is_valid(text); }
static int ours(const char *text) { return signature_validate((const uint8_t *)text, strlen(text)).refusal == 0; }

static void time_it(const char *name, int (*ask)(const char *)) {
    for (int i = 0; i < count; i++)
        if (!ask(texts[i])) { fprintf(stderr, "%s refuses %s\n", name, texts[i]); exit(1); }
    int times = 1;
    double least = 1e18;
    for (int round = 0; round < ROUNDS; round++) {
        double start, spent;
        for (;;) {
            start = now();
            for (int n = 0; n < times; n++)
                for (int i = 0; i < count; i++) sum += ask(texts[i]);
            spent = now() - start;
            if (spent > 1e7) break; /* a round takes at least 10 ms */
            times *= 2;
        }
        double each = spent / times / count;
        if (each < least) least = each;
    }
    printf("%s\t%.2f\n", name, least);
}

int main(int argc, char **argv) {
    FILE *f = argc > 1 ? fopen(argv[1], "r") : NULL;
    char *line = NULL;
    size_t room = 0;
    ssize_t n;
    if (!f) { fprintf(stderr, "usage: bench FILE\n"); return 2; }
    while (count < MOST && (n = getline(&line, &room, f)) >= 0) {
        if (n > 0 && line[n - 1] == '\n') line[--n] = 0;
        texts[count++] = strdup(line);
    }
    time_it("libdbus", libdbus);
    time_it("GLib", glib);
    time_it("validate", ours);
    return sum == 0;
}
