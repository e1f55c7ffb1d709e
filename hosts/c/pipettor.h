/* The proved pipettor controller, for C99 and C++. Link target/staticlib/libhost.a (`hosts/library` builds it); x86-64-v2, System V calls.
   Include this file anywhere; there is nothing to initialise but a `pipettor`, and nothing to free.

   Memory: one `pipettor` is one controller, 760 bytes, wherever you like (static, stack, heap, a copy by assignment). Its fields need
   the alignment that the compiler gives them. No call allocates, blocks, keeps a pointer, or touches anything but what is handed to it.
   Stack: under 3,600 bytes. Of the C library memcpy and memset are called.
   Threads: calls on different pipettors don't meet. Calls on the same one must not overlap, interrupts included.
   Overlap: the answer buffer and the bytes for pip_listen must lie outside the pipettor.

   Returned: below 2^63 a value; from 2^63 on a refusal, and then nothing at all has changed. Any contents of the memory may be handed
   in: what no controller could have left there is refused with PIPETTOR_BROKEN. Each call looks only at what it uses; pip_check looks
   at everything. */
#ifndef PIPETTOR_H
#define PIPETTOR_H

#include <stddef.h>
#include <stdint.h>

#if !defined(__x86_64__) || defined(_WIN32)
#error "libhost.a is built for x86-64 with System V calls"
#endif

/* One controller. Read the fields if you must, never write them: a value that doesn't fit is refused by the next call that uses it. */
typedef struct pipettor {
    uint64_t wide[8];   /* exact position, place in the text, its length, open loops, where four loops start */
    uint32_t count[1];  /* data bytes of the frame in hand */
    uint32_t words[26]; /* plunger, 7 settings, 7 settings of the search, 4 loop counts, wrong column, 6 numbers of what is in progress */
    uint8_t address[1]; /* 1 to 9 */
    uint8_t line[4];    /* receiver: state, address, sequence and sum of the frame in hand */
    uint8_t small[4];   /* initialised, state of the buffer, last error, tip at the last tick */
    uint8_t frame[320]; /* data of the frame in hand */
    uint8_t text[256];  /* the stored or running commands */
} pipettor;

/* Framings, for pip_make. */
#define PIPETTOR_DT 0u
#define PIPETTOR_OEM 1u

/* The shortest answer buffer. No answer is longer. */
#define PIPETTOR_ANSWER 32u

/* The most ticks that pip_run takes. */
#define PIPETTOR_RUN 60000u

/* Refusals. */
#define PIPETTOR_S1 ((UINT64_C(1) << 63) + 1)         /* the answer buffer is shorter than 32 bytes */
#define PIPETTOR_S2 ((UINT64_C(1) << 63) + 2)         /* the address is none of 1 to 9 */
#define PIPETTOR_S3 ((UINT64_C(1) << 63) + 3)         /* a run of more than 60000 ticks */
#define PIPETTOR_BROKEN ((UINT64_C(1) << 63) + 256)   /* the memory holds no controller */
#define PIPETTOR_UNFRAMED ((UINT64_C(1) << 63) + 257) /* the framing is neither DT nor OEM */
#define PIPETTOR_REFUSED(r) ((int)((uint64_t)(r) >> 63))

/* What ticks tell, from the value of pip_tick, pip_advance and pip_run: the ticks used (pip_run alone), the number with which a run
   failed in them (0: none did), and whether the host is now to drop the tip. */
#define PIPETTOR_TICKS(r) ((uint32_t)(r))
#define PIPETTOR_FAILED(r) ((unsigned)((uint64_t)(r) >> 32 & 15))
#define PIPETTOR_EJECT(r) ((int)((uint64_t)(r) >> 36 & 1))

/* Numbers of the last error and of a failed run; also the low four bits of an answer's status byte. */
#define PIPETTOR_LETTER 2          /* this letter is not allowed here */
#define PIPETTOR_NUMBER 3          /* a number, a report or the loops are wrong; in a run, a move that can't be made */
#define PIPETTOR_PRESSURE 5        /* the reading was outside -32767 to 32767 while B was in progress */
#define PIPETTOR_NO_LIQUID 6       /* B went its whole way and found none */
#define PIPETTOR_UNINITIALISED 7   /* a move, B or E1 before W */
#define PIPETTOR_TIP_STAYS 8       /* the tip was still there in the tick after E */
#define PIPETTOR_NO_TIP 10         /* E or E0 without a tip */
#define PIPETTOR_NOTHING_TO_RUN 14 /* R or X with nothing to run */
#define PIPETTOR_FULL_OR_BUSY 15   /* too long, or busy */

/* The library's own functions: the same calls with each field handed over by itself. The functions below this block are these with a
   pipettor's fields filled in. Arrays are pointers to their first element, at least so long, aligned for their type, and apart from
   each other. They must say what crates/host_c/src/lib.rt says: no linker tells, hosts/declarations does. */
#ifdef __cplusplus
extern "C" {
#endif

uint64_t pipettor_make(uint32_t framing, uint32_t number, uint8_t address[1], uint8_t line[4], uint32_t count[1], uint8_t frame[320],
                       uint64_t wide[8], uint32_t words[26], uint8_t small[4], uint8_t text[256]);
uint64_t pipettor_byte(uint8_t b, uint8_t address[1], uint8_t line[4], uint32_t count[1], uint8_t frame[320], uint64_t wide[8],
                       uint32_t words[26], uint8_t small[4], uint8_t text[256], uint8_t *answer, size_t size);
uint64_t pipettor_listen(const uint8_t *bytes, size_t size, uint8_t line[4], uint32_t count[1], uint8_t frame[320]);
uint64_t pipettor_tick(uint8_t tip, int32_t reading, uint64_t wide[8], uint32_t words[26], uint8_t small[4], const uint8_t text[256]);
uint64_t pipettor_advance(uint32_t n, uint8_t tip, int32_t reading, uint64_t wide[8], uint32_t words[26], uint8_t small[4],
                          const uint8_t text[256]);
uint64_t pipettor_run(uint32_t n, uint8_t tip, int32_t reading, uint64_t wide[8], uint32_t words[26], uint8_t small[4],
                      const uint8_t text[256]);
uint64_t pipettor_stop(uint64_t wide[8], uint32_t words[26], uint8_t small[4], const uint8_t text[256]);
uint64_t pipettor_plunger(const uint64_t wide[8], const uint32_t words[26], const uint8_t small[4]);
uint64_t pipettor_exact(const uint64_t wide[8], const uint32_t words[26], const uint8_t small[4]);
uint64_t pipettor_ready(const uint64_t wide[8], const uint32_t words[26], const uint8_t small[4]);
uint64_t pipettor_error(const uint64_t wide[8], const uint32_t words[26], const uint8_t small[4]);
uint64_t pipettor_check(const uint8_t address[1], const uint8_t line[4], const uint32_t count[1], const uint8_t frame[320],
                        const uint64_t wide[8], const uint32_t words[26], const uint8_t small[4], const uint8_t text[256]);

#ifdef __cplusplus
}
#endif

/* Makes *p a fresh controller of an address of 1 to 9, whatever it held: plunger and exact position 0, not initialised, no tip seen.
   Returns 0, PIPETTOR_S2 or PIPETTOR_UNFRAMED. Call it once at start; the framing and the address stay for good. */
static inline uint64_t pip_make(pipettor *p, uint32_t framing, uint32_t address) {
    return pipettor_make(framing, address, p->address, p->line, p->count, p->frame, p->wide, p->words, p->small, p->text);
}

/* One byte from the wire. Returns 0 when there is nothing to send, else how many bytes at `answer` are to be sent; the rest of the
   buffer stays as it was. `size` is the buffer's length: below 32 every byte is refused with PIPETTOR_S1 and not heard. */
static inline uint64_t pip_byte(pipettor *p, uint8_t b, uint8_t *answer, size_t size) {
    return pipettor_byte(b, p->address, p->line, p->count, p->frame, p->wide, p->words, p->small, p->text, answer, size);
}

/* Many bytes from the wire at once: takes them up to one that completes a frame, and returns how many it took. If that is less than
   `size`, give the next one to pip_byte, which may answer, and go on behind it. */
static inline uint64_t pip_listen(pipettor *p, const uint8_t *bytes, size_t size) {
    return pipettor_listen(bytes, size, p->line, p->count, p->frame);
}

/* 10 ms have passed. `tip` is 1 while a tip is on, else 0; `reading` is the pressure now. Returns news (PIPETTOR_FAILED,
   PIPETTOR_EJECT), mostly 0. After an eject the next tick's `tip` must be 0, or the run fails with 8. */
static inline uint64_t pip_tick(pipettor *p, uint8_t tip, int32_t reading) {
    return pipettor_tick(tip, reading, p->wide, p->words, p->small, p->text);
}

/* Exactly n ticks at once, ready or not, with one tip and one reading for all of them. Returns their news. Nobody can drop a tip in
   between: for simulations, or where no E can come. Takes up to n ticks' time. */
static inline uint64_t pip_advance(pipettor *p, uint32_t n, uint8_t tip, int32_t reading) {
    return pipettor_advance(n, tip, reading, p->wide, p->words, p->small, p->text);
}

/* Ticks until ready, at most n of them (n up to 60000, else PIPETTOR_S3). Returns PIPETTOR_TICKS, how many it used, and their news. */
static inline uint64_t pip_run(pipettor *p, uint32_t n, uint8_t tip, int32_t reading) {
    return pipettor_run(n, tip, reading, p->wide, p->words, p->small, p->text);
}

/* The host's stop: cuts what is in progress as a T from the wire does, without a frame; the last error stays. Returns 0. */
static inline uint64_t pip_stop(pipettor *p) {
    return pipettor_stop(p->wide, p->words, p->small, p->text);
}

/* Where the plunger is now, 0 to 44000 increments: this is what the drive is to follow after each tick. */
static inline uint64_t pip_plunger(const pipettor *p) {
    return pipettor_plunger(p->wide, p->words, p->small);
}

/* The exact position in millionths of an increment: where the commands taken so far, unrounded, lead to. */
static inline uint64_t pip_exact(const pipettor *p) {
    return pipettor_exact(p->wide, p->words, p->small);
}

/* 1 when ready, 0 while a run goes on. */
static inline uint64_t pip_ready(const pipettor *p) {
    return pipettor_ready(p->wide, p->words, p->small);
}

/* The number of the last error, 0 where there is none: what the status byte of the next report will carry. */
static inline uint64_t pip_error(const pipettor *p) {
    return pipettor_error(p->wide, p->words, p->small);
}

/* Whether the whole of *p is a controller: 0, or PIPETTOR_BROKEN. Worth calling after a restart on memory that was kept, or now and
   then where memory may flip. */
static inline uint64_t pip_check(const pipettor *p) {
    return pipettor_check(p->address, p->line, p->count, p->frame, p->wide, p->words, p->small, p->text);
}

#endif
