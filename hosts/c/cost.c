/* cost KIND N: N calls of one kind; cost alone lists the kinds. Linked with the library, and with empty.s, whose functions do nothing:
   the difference in instructions is what the library's function costs. hosts/cost counts them. */
#include "pipettor.h"

#include <inttypes.h>
#include <limits.h>
#include <stdio.h>
#include <stdlib.h>
#include <string.h>

enum { PIECE = 250 };

static uint8_t answer[PIPETTOR_ANSWER];
static uint8_t piece[PIECE];

/* each kind of call, in a function of its own */
#define ALONE __attribute__((noinline)) static uint64_t
ALONE collect(pipettor *p) { return pip_byte(p, 'A', answer, sizeof answer); }
ALONE end_dt(pipettor *p) { return pip_byte(p, '\r', answer, sizeof answer); }
ALONE end_oem(pipettor *p) { return pip_byte(p, 2 ^ '1' ^ '0' ^ 'Q' ^ 3, answer, sizeof answer); }
ALONE listen(pipettor *p) { return pip_listen(p, piece, sizeof piece); }
ALONE tick(pipettor *p) { return pip_tick(p, 0, 0); }
ALONE thousand(pipettor *p) { return pip_run(p, 1000, 0, 0); }
ALONE stop(pipettor *p) { return pip_stop(p); }
ALONE plunger(pipettor *p) { return pip_plunger(p); }
ALONE check(pipettor *p) { return pip_check(p); }
ALONE make(pipettor *p) { return pip_make(p, PIPETTOR_DT, 1); }

/* a kind of call: the framing, what is heard before it, the ticks that pass then, and after how many calls the controller is put back
   to there */
struct kind {
    const char *name;
    uint64_t (*call)(pipettor *);
    uint32_t framing;
    const char *before;
    uint32_t ticks;
    unsigned again;
    const char *what;
};

static const struct kind kinds[] = {
    {"collect", collect, PIPETTOR_DT, "/1", 0, PIECE, "a byte that is collected, DT"},
    {"collect-oem", collect, PIPETTOR_OEM, "\0021" "0", 0, PIECE, "a byte that is collected, OEM"},
    {"listen", listen, PIPETTOR_DT, "/1", 0, 1, "250 bytes that are collected, by pip_listen"},
    {"listen-oem", listen, PIPETTOR_OEM, "\0021" "0", 0, 1, "250 bytes that are collected, by pip_listen, OEM"},
    {"end", end_dt, PIPETTOR_DT, "/1Q", 0, 1, "the CR of Q"},
    {"end-oem", end_oem, PIPETTOR_OEM, "\0021" "0Q\003", 0, 1, "the sum of Q, OEM"},
    {"report", end_dt, PIPETTOR_DT, "/1WR\r/1?19", 1, 1, "the CR of ?19"},
    {"load", end_dt, PIPETTOR_DT, "/1WA2000P500D100", 0, 1, "the CR of a string of 14 characters"},
    {"idle", tick, PIPETTOR_DT, "", 0, UINT_MAX, "a tick while nothing runs"},
    {"delay", tick, PIPETTOR_DT, "/1M30000R\r", 2, 2000, "a tick of a delay"},
    {"move", tick, PIPETTOR_DT, "/1Wv100V100A44000R\r", 5, 40000, "a tick of a movement"},
    {"search", tick, PIPETTOR_DT, "/1Wp3,100B1R\r", 3, 40000, "a tick of a search"},
    {"take", tick, PIPETTOR_DT, "/1WgK5G0R\r", 2, UINT_MAX, "a tick that takes a command, K and G in turn"},
    {"thousand", thousand, PIPETTOR_DT, "/1Wv100V100A44000R\r", 5, 40, "pip_run of 1000 ticks of a movement"},
    {"stop", stop, PIPETTOR_DT, "/1Wv100V100A44000R\r", 5, 1, "pip_stop in a movement"},
    {"plunger", plunger, PIPETTOR_DT, "/1WA44000R\r", 5, UINT_MAX, "pip_plunger; pip_exact, pip_ready and pip_error are like it"},
    {"check", check, PIPETTOR_DT, "/1WA44000R\r", 5, UINT_MAX, "pip_check"},
    {"make", make, PIPETTOR_DT, "", 0, UINT_MAX, "pip_make"},
};
enum { KINDS = sizeof kinds / sizeof kinds[0] };

static void prepare(pipettor *p, const struct kind *k) {
    pip_make(p, k->framing, 1);
    for (const char *c = k->before; *c; c++) pip_byte(p, (uint8_t)*c, answer, sizeof answer);
    for (uint32_t i = 0; i < k->ticks; i++) pip_tick(p, 0, 0);
}

static uint64_t repeat(const struct kind *k, unsigned long calls) {
    static pipettor begun, p;
    uint64_t all = 0;
    unsigned left = 0;
    prepare(&begun, k);
    for (; calls > 0; calls--, left--) {
        if (left == 0) {
            p = begun;
            left = k->again;
        }
        all ^= k->call(&p);
    }
    return all;
}

int main(int argc, char **argv) {
    memset(piece, 'A', sizeof piece);
    for (int i = 0; argc == 3 && i < KINDS; i++)
        if (strcmp(argv[1], kinds[i].name) == 0) {
            printf("%016" PRIx64 "\n", repeat(&kinds[i], strtoul(argv[2], NULL, 10)));
            return 0;
        }
    for (int i = 0; i < KINDS; i++) printf("%s\t%s\n", kinds[i].name, kinds[i].what);
    return argc > 1 ? 2 : 0;
}
