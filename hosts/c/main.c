/* README's first dialogue, played through pipettor.h and printed in README's words. Ends with 0 only if all is as it stands there. */
#include "pipettor.h"

#include <inttypes.h>
#include <stdio.h>
#include <string.h>

/* a line of the dialogue and what README shows under it; a frame is its text, n ticks their count */
struct line {
    const char *text;
    uint32_t ticks;
    const char *shown;
};

static const struct line dialogue[] = {
    {"1WR", 0, "@"},
    {NULL, 1, "0 0"},
    {"1P0.01,1P0.01,1P0.01,1P0.01,1P0.01,1R", 0, "@"},
    {NULL, 1, "0 400000"},
    {NULL, 1, "0 800000"},
    {NULL, 1, "1 800000"},
    {NULL, 5, "2 2000000"},
    {"1?1", 0, "`2"},
};

/* '/', the text and CR go over the wire; status and data of the answer are shown, or '-' */
static void send(pipettor *p, const char *text, char *shown, size_t room) {
    uint8_t answer[PIPETTOR_ANSWER];
    uint64_t n;
    pip_byte(p, '/', answer, sizeof answer);
    for (; *text; text++) pip_byte(p, (uint8_t)*text, answer, sizeof answer);
    n = pip_byte(p, '\r', answer, sizeof answer);
    if (n == 0 || PIPETTOR_REFUSED(n)) {
        snprintf(shown, room, "-");
        return;
    }
    snprintf(shown, room, "%.*s", (int)n - 5, (const char *)answer + 2);
}

static void pass(pipettor *p, uint32_t ticks, char *shown, size_t room) {
    for (; ticks > 0; ticks--) pip_tick(p, 0, 0);
    snprintf(shown, room, "%" PRIu64 " %" PRIu64, pip_plunger(p), pip_exact(p));
}

int main(void) {
    static pipettor p;
    int wrong = 0;
    if (pip_make(&p, PIPETTOR_DT, 1) != 0) return 1;
    for (size_t i = 0; i < sizeof dialogue / sizeof dialogue[0]; i++) {
        const struct line *l = &dialogue[i];
        char shown[64];
        if (l->text) {
            printf("> %s\n", l->text);
            send(&p, l->text, shown, sizeof shown);
        } else {
            printf("t %" PRIu32 "\n", l->ticks);
            pass(&p, l->ticks, shown, sizeof shown);
        }
        puts(shown);
        if (strcmp(shown, l->shown) != 0) {
            fprintf(stderr, "README shows %s\n", l->shown);
            wrong = 1;
        }
    }
    return wrong;
}
