/* broken N: N damaged images, every function called on each.
   Each array that is lent has a page of its own between two that nobody may touch: it lies at the page's end for one image and at its
   beginning for the next, so that a read or a write beyond either end stops the program; the rest of the page is watched.
   Held for every call: what is not lent stays as it was; a refused call leaves everything as it was; what isn't lent for writing
   stays; memory that is no controller stays none, and memory that is one stays one. The images are the same in every run. */
#define _DEFAULT_SOURCE
#include "pipettor.h"

#include <inttypes.h>
#include <stdio.h>
#include <stdlib.h>
#include <string.h>
#include <sys/mman.h>

enum { PAGE = 4096, NEAR = 64, WATCHED = 0xA5 };

/* the parts, in the order of pipettor_check's arguments; then the answer buffer and the bytes to listen to */
enum { ADDRESS, LINE, COUNT, RECEIVED, WIDE, WORDS, SMALL, TEXT, PARTS, ANSWER = PARTS, HEARD, LENT };
static const size_t size[LENT] = {1, 4, 4, 320, 64, 104, 4, 256, 64, 64};
static uint8_t *page[LENT];
static uint8_t *lent[LENT];
static int at_end;

/* a whole image, with the buffers, as one row of bytes */
enum { ROW = 1 + 4 + 4 + 320 + 64 + 104 + 4 + 256 + 64 + 64 };
typedef struct {
    uint8_t bytes[ROW];
} row;

static uint64_t seed = 1;
static uint64_t any(void) {
    seed += UINT64_C(0x9E3779B97F4A7C15);
    uint64_t z = seed;
    z = (z ^ z >> 30) * UINT64_C(0xBF58476D1CE4E5B9);
    z = (z ^ z >> 27) * UINT64_C(0x94D049BB133111EB);
    return z ^ z >> 31;
}
static uint64_t below(uint64_t n) {
    return any() % n;
}

static void take_pages(void) {
    for (int i = 0; i < LENT; i++) {
        uint8_t *three = mmap(NULL, 3 * PAGE, PROT_NONE, MAP_PRIVATE | MAP_ANONYMOUS, -1, 0);
        if (three == MAP_FAILED || mprotect(three + PAGE, PAGE, PROT_READ | PROT_WRITE) != 0) {
            perror("broken: pages");
            exit(2);
        }
        page[i] = three + PAGE;
        lent[i] = page[i];
        memset(page[i], WATCHED, PAGE);
    }
}

/* the arrays at the pages' ends, or at their beginnings */
static void lay(int end) {
    at_end = end;
    for (int i = 0; i < LENT; i++) {
        memset(lent[i], WATCHED, size[i]);
        lent[i] = page[i] + (end ? PAGE - size[i] : 0);
    }
}

/* what lies next to the arrays */
static int untouched(void) {
    static uint8_t watched[NEAR];
    if (!watched[0]) memset(watched, WATCHED, NEAR);
    for (int i = 0; i < LENT; i++)
        if (memcmp(at_end ? lent[i] - NEAR : lent[i] + size[i], watched, NEAR) != 0) return 0;
    return 1;
}

/* all of the pages, with nothing lent */
static int whole_pages_untouched(void) {
    lay(0);
    lay(1);
    for (int i = 0; i < LENT; i++)
        for (size_t at = 0; at < PAGE; at++)
            if (page[i][at] != WATCHED) return 0;
    return 1;
}

static row take(void) {
    row r;
    uint8_t *to = r.bytes;
    for (int i = 0; i < LENT; i++) {
        memcpy(to, lent[i], size[i]);
        to += size[i];
    }
    return r;
}
static void put(const row *r) {
    const uint8_t *from = r->bytes;
    for (int i = 0; i < LENT; i++) {
        memcpy(lent[i], from, size[i]);
        from += size[i];
    }
}

/* the lent parts as the functions take them */
#define WIDE_ ((uint64_t *)(void *)lent[WIDE])
#define WORDS_ ((uint32_t *)(void *)lent[WORDS])
#define COUNT_ ((uint32_t *)(void *)lent[COUNT])
#define POSE WIDE_, WORDS_, lent[SMALL]
#define ALL lent[ADDRESS], lent[LINE], COUNT_, lent[RECEIVED], POSE, lent[TEXT]

static uint64_t check(void) {
    return pipettor_check(ALL);
}

/* a buffer is cut so that it still lies at its page's edge */
static uint8_t *cut(int part, size_t length) {
    return at_end ? lent[part] + size[part] - length : lent[part];
}
static size_t answer_length;
static uint64_t hear(uint8_t b, size_t length) {
    answer_length = length;
    return pipettor_byte(b, ALL, cut(ANSWER, length), length);
}
static void say(const char *bytes) {
    for (; *bytes; bytes++) hear((uint8_t)*bytes, 32);
}

/* an OEM frame to address 1, with its sum */
static void say_oem(const char *data) {
    uint8_t sum = 2 ^ '1' ^ '0' ^ 3;
    say("\0021" "0");
    say(data);
    for (; *data; data++) sum ^= (uint8_t)*data;
    hear(3, 32);
    hear(sum, 32);
}

/* a living controller: made, and somewhere in a method, in a frame or both */
static void live(void) {
    static const char *const methods[] = {
        "/1WR\r", "/1WA2000P500D100R\r", "/1WV2000gP10M200G3D5R\r", "/1WA1000EA0R\r", "/1Wp2,300p1,40B0A0R\r", "/1WB1R\r",
        "/1A5P2\r", "/1ZZ\r", "/1WgggA1000A0G0G2G3R\r", "/1E1R\r", "/1WA44000R\r", "/1WA30000W100R\r",
    };
    uint32_t framing = (uint32_t)below(4) == 0;
    pipettor_make(framing, 1, ALL);
    if (framing) {
        say_oem("WA3000M100A0R");
    } else {
        say("/1WR\r");
        pipettor_tick(0, 0, POSE, lent[TEXT]);
        say(methods[below(sizeof methods / sizeof methods[0])]);
    }
    pipettor_advance((uint32_t)below(600), (uint8_t)below(2), (int32_t)below(40), POSE, lent[TEXT]);
    if (below(2)) say(framing ? "\0021" "0A1" : "/1A12,34");
    if (below(8) == 0) pipettor_stop(POSE, lent[TEXT]);
}

/* numbers near the limits of something, so that tests of bounds are met from both sides */
static uint64_t near_a_limit(void) {
    static const uint64_t limits[] = {0,     1,     2,     3,     4,     5,    7,     9,     10,      15,    20,    80,    100, 255, 256, 320,
                                      321,   350,   500,   1000,  12000, 1015, 40350, 39650, 44000,   65534, 80000, 800000, 120000, 4294967295u,
                                      44000000000u, 32767, 65535, 100000, UINT64_MAX};
    return limits[below(sizeof limits / sizeof limits[0])] + below(3) - 1;
}

static void damage_bytes(void) {
    for (uint64_t k = 1 + below(6); k > 0; k--) {
        int part = (int)below(PARTS);
        lent[part][below(size[part])] = below(3) ? (uint8_t)any() : (uint8_t)below(12);
    }
}
static void damage_numbers(void) {
    for (uint64_t k = 1 + below(3); k > 0; k--) {
        switch (below(5)) {
        case 0: WIDE_[below(8)] = near_a_limit(); break;
        case 1: WORDS_[below(26)] = (uint32_t)near_a_limit(); break;
        case 2: lent[SMALL][below(4)] = (uint8_t)near_a_limit(); break;
        case 3: lent[LINE][below(4)] = (uint8_t)near_a_limit(); break;
        default: COUNT_[0] = (uint32_t)near_a_limit(); break;
        }
    }
}
static void damage_all(void) {
    for (int part = 0; part < PARTS; part++)
        for (size_t i = 0; i < size[part]; i++) lent[part][i] = (uint8_t)any();
}

static uint64_t refused, accepted, whole;

static void fail(const char *why, uint64_t image, const char *call) {
    fprintf(stderr, "broken: image %" PRIu64 ", %s: %s\n", image, call, why);
    exit(1);
}

/* what was not lent for writing is the same, also that part of the answer's array which the buffer left out */
static int kept(const row *before, unsigned written) {
    const uint8_t *from = before->bytes;
    for (int i = 0; i < LENT; i++) {
        size_t held = !(written >> i & 1) ? size[i] : i == ANSWER ? size[i] - answer_length : 0;
        size_t skip = at_end ? 0 : size[i] - held;
        if (memcmp(lent[i] + skip, from + skip, held) != 0) return 0;
        from += size[i];
    }
    return 1;
}

/* what a call may tell: values up to one, and refusals */
typedef struct {
    uint64_t most;
    uint64_t refusals[2];
} range;

static int may_tell(range r, uint64_t told) {
    return PIPETTOR_REFUSED(told) ? told == r.refusals[0] || told == r.refusals[1] : told <= r.most;
}

/* after a call that may write the parts in `written` */
static void judge(uint64_t image, const char *call, const row *before, uint64_t told, range r, unsigned written, uint64_t was) {
    if (!may_tell(r, told)) fail("it told what it can't", image, call);
    if (PIPETTOR_REFUSED(told)) {
        refused++;
        written = 0;
    } else {
        accepted++;
    }
    if (!kept(before, written)) fail("it changed what it may not", image, call);
    if (!untouched()) fail("it wrote beside what was lent", image, call);
    if (check() != was) fail(was ? "what was no controller is one" : "what was a controller is none", image, call);
}

#define MOVER (1u << WIDE | 1u << WORDS | 1u << SMALL)
#define RECEIVER (1u << LINE | 1u << COUNT | 1u << RECEIVED)
#define SPOKEN (MOVER | RECEIVER | 1u << TEXT | 1u << ANSWER)
#define NEWS(ticks) ((UINT64_C(1) << 36) + (UINT64_C(15) << 32) + (ticks))
#define TRY(call, expression, most, refusal, written)                                                   \
    do {                                                                                                \
        uint64_t told;                                                                                  \
        put(before);                                                                                    \
        told = (expression);                                                                            \
        judge(image, call, before, told, (range){(most), {PIPETTOR_BROKEN, (refusal)}}, (written), was); \
    } while (0)

static uint8_t some_byte(void) {
    static const uint8_t meaning[] = {'/', '\r', '1', 'A', 2, 3, '0', 'R', 'Q', ' ', 0x7F, 0xFF};
    return below(2) ? meaning[below(sizeof meaning)] : (uint8_t)any();
}

static void try_all(uint64_t image, const row *before) {
    uint64_t was = check();
    if (was != 0 && was != PIPETTOR_BROKEN) fail("it told something else", image, "pipettor_check");
    if (was == 0) whole++;
    uint8_t tip = (uint8_t)any();
    int32_t reading = (int32_t)(uint32_t)any() >> below(32);
    uint32_t n = (uint32_t)below(300);
    size_t length = below(65);
    size_t heard = below(65);
    TRY("pipettor_byte, short", hear(some_byte(), below(32)), 0, PIPETTOR_S1, 0);
    TRY("pipettor_byte", hear(some_byte(), length), 32, length < 32 ? PIPETTOR_S1 : PIPETTOR_BROKEN, SPOKEN);
    TRY("pipettor_byte CR", hear('\r', 32 + below(33)), 32, PIPETTOR_BROKEN, SPOKEN);
    TRY("pipettor_byte /", hear('/', 32 + below(33)), 32, PIPETTOR_BROKEN, SPOKEN);
    TRY("pipettor_listen", pipettor_listen(cut(HEARD, heard), heard, lent[LINE], COUNT_, lent[RECEIVED]), heard, PIPETTOR_BROKEN, RECEIVER);
    TRY("pipettor_tick", pipettor_tick(tip, reading, POSE, lent[TEXT]), NEWS(0), PIPETTOR_BROKEN, MOVER);
    TRY("pipettor_advance", pipettor_advance(n, tip, reading, POSE, lent[TEXT]), NEWS(0), PIPETTOR_BROKEN, MOVER);
    TRY("pipettor_run", pipettor_run(n, tip, reading, POSE, lent[TEXT]), NEWS(n), PIPETTOR_BROKEN, MOVER);
    TRY("pipettor_run, too long", pipettor_run(60001 + (uint32_t)below(1000000), tip, reading, POSE, lent[TEXT]), 0, PIPETTOR_S3, 0);
    TRY("pipettor_stop", pipettor_stop(POSE, lent[TEXT]), 0, PIPETTOR_BROKEN, MOVER);
    TRY("pipettor_plunger", pipettor_plunger(POSE), 44000, PIPETTOR_BROKEN, 0);
    TRY("pipettor_exact", pipettor_exact(POSE), UINT64_C(44000000000), PIPETTOR_BROKEN, 0);
    TRY("pipettor_ready", pipettor_ready(POSE), 1, PIPETTOR_BROKEN, 0);
    TRY("pipettor_error", pipettor_error(POSE), 15, PIPETTOR_BROKEN, 0);
    TRY("pipettor_check", pipettor_check(ALL), 0, PIPETTOR_BROKEN, 0);
    TRY("pipettor_make, no address", pipettor_make(0, below(2) ? 0 : 10 + (uint32_t)any() / 2, ALL), 0, PIPETTOR_S2, 0);
    TRY("pipettor_make, no framing", pipettor_make(2 + (uint32_t)any() / 2, 1, ALL), 0, PIPETTOR_UNFRAMED, 0);
    was = 0;
    TRY("pipettor_make", pipettor_make((uint32_t)below(2), 1 + (uint32_t)below(9), ALL), 0, PIPETTOR_BROKEN, (1u << PARTS) - 1);
}

int main(int argc, char **argv) {
    uint64_t images = argc > 1 ? strtoull(argv[1], NULL, 10) : 100000;
    take_pages();
    for (uint64_t image = 0; image < images; image++) {
        lay(image & 1);
        switch (image / 2 % 4) {
        case 0:
            damage_all();
            break;
        case 1:
            live();
            damage_numbers();
            break;
        default:
            live();
            damage_bytes();
        }
        for (size_t i = 0; i < size[HEARD]; i++) lent[HEARD][i] = some_byte();
        for (size_t i = 0; i < size[ANSWER]; i++) lent[ANSWER][i] = (uint8_t)any();
        row before = take();
        try_all(image, &before);
    }
    if (!whole_pages_untouched()) fail("something was written far from what was lent", images, "all of them");
    printf("broken: %" PRIu64 " images, %" PRIu64 " still whole; %" PRIu64 " calls refused with nothing changed, %" PRIu64 " accepted\n", images, whole, refused, accepted);
    return whole == 0 || whole == images || refused == 0 || accepted == 0;
}
