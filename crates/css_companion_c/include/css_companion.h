/* css_companion.h: follow a television of ETSI TS 103 286-2 (DVB-CSS) from your own application.
 *
 * You have the sockets and the clock. This library says what to send, takes in what came, and tells which ticks of a
 * timeline the television may be presenting: an interval that contains the truth, or the cause why there is none.
 *
 * PROVED of every call, for every argument: it reads and writes nothing but what is pointed at, it ends, it answers
 * the code that is said here, and after 1 to 15 the companion is as before. What a call would have written where it
 * answers 0 is else as before too, but for *used. Of `wall`, `position`, `lead` and `when`: whatever datagrams were
 * lost, repeated or reordered, while both oscillators keep their declared error and precision, and each accepted
 * response tells truly of an exchange with the television, the interval contains the truth. A snapshot tells the
 * position that its companion would have told when it was taken. Up to the reading that `until` tells, `wall` is no
 * wider than was asked, while the age is the same. What `agreed` tells contains the truth where all accepted responses
 * tell truly. Where `land` answers CSS_DISAGREE they don't: a television set its clock, an oscillator runs outside its
 * error, or a response was forged.
 *
 * TRUSTED, since no prover sees your code:
 *   - this header fits the library; pointers point to what their types say, and a pointer with length 0 may be NULL;
 *   - what two arguments of a call point to doesn't overlap, but for two texts that are only read;
 *   - a handle begins as CSS_NONE and is then changed by these calls alone; a live one is moved, and never copied;
 *   - one call at a time on a handle. Different handles share nothing, and any thread may make a call;
 *   - malloc, realloc and free are one allocator. No call from a signal handler, or from a forked child of a process
 *     with threads;
 *   - readings are those of ONE clock that nobody sets, as CLOCK_MONOTONIC. Say `slept` where it may have stood still;
 *   - `error` covers that clock's crystal and the slewing of a time service: 256 for each ppm.
 *
 * There is no global state, no thread, no thread-local and no callback. Memory is taken by new, cii, cii_state, setup,
 * control, presentation, report and fault, and by land for the first response of a declared error and for one that
 * promises a follow-up. All others take none, and never answer CSS_MEMORY.
 *
 * It was tried on Linux with glibc: on x86-64 from C11, C++17, Rust and Python, and on ARM of 64 bits from C11. All
 * that it needs of a system is memcpy, memmove, memset, malloc, realloc and free of the C library, and __udivti3 of the
 * compiler. So on Android, or over another C library, link the archive with the compiler of that system. The shared
 * object asks for libc.so.6 and libgcc_s.so.1 by name.
 */
#ifndef CSS_COMPANION_H
#define CSS_COMPANION_H

#include <stdbool.h>
#include <stddef.h>
#include <stdint.h>
#include <time.h>

#ifdef __cplusplus
extern "C" {
#define CSS_ASSERT(is, words) static_assert(is, words)
#else
#define CSS_ASSERT(is, words) _Static_assert(is, words)
#endif

/* The version of this page. css_companion_version() tells that of the library: see at the start that it isn't below
 * this one. Within a number nothing of this page changes. A higher one has further calls and codes, and leaves all
 * others as they were; a code that you don't know says by its group what to do. Where that can't be so, the shared
 * object has another number in its name. */
#define CSS_VERSION 2

/* A companion, or none. 24 bytes in your memory; what it points to is the library's. */
typedef struct css_companion {
    bool live;
    uint64_t age;
    void *at;
} css_companion;
#define CSS_NONE { false, 0, NULL }

enum css_code {
    CSS_DONE = 0,
    /* 1 to 15: nothing has changed */
    CSS_MEMORY = 1,   /* malloc refused; try again */
    CSS_RANGE = 2,    /* a number or a length is out of range */
    CSS_EARLY = 3,    /* the reading is below that of an `ask`, or of a `land` that answered 0 or CSS_IMPOSSIBLE, or
                       * after a sleep not above all that were asked at. No other call raises the least reading */
    CSS_CLOSED = 4,   /* there is no companion behind the handle */
    CSS_NO_ROOM = 5,  /* the buffer is too short: *used says what is needed */
    CSS_TOO_WIDE = 6, /* the interval doesn't fit 64 bits */
    CSS_NOT_UTF8 = 7, /* the selector or the stem isn't UTF-8 */
    /* 16 to 31: a datagram was refused. That is no error of yours: read on */
    CSS_UNDECODABLE = 16,   /* no datagram of CSS-WC */
    CSS_NOT_AN_ANSWER = 17, /* a request */
    CSS_UNASKED = 18,       /* it answers none of the last 64 requests since the last sleep */
    CSS_IMPOSSIBLE = 19,    /* it contradicts itself */
    /* 32 to 47: a CII text was refused, or responses disagree. Hang up, and begin with a new companion */
    CSS_NOT_JSON = 32,
    CSS_NOT_OBJECT = 33,
    CSS_FIELD = 34, /* a property has another form than it should */
    CSS_MOVED = 35, /* it moves wcUrl or tsUrl */
    CSS_DISAGREE = 36, /* the responses accepted since the last sleep contradict each other: not all of them are true.
                        * `slept` forgets them */
    /* 48 to 63: why there is no interval, or no text, now. It may come: go on, and ask again */
    CSS_NO_ANSWER = 48,      /* no response of the wall clock was accepted since the last sleep */
    CSS_NO_TIMESTAMP = 49,   /* no control timestamp came on this TS session */
    CSS_SESSION_CLOSED = 50, /* the TS session closed: open it again, and send `setup` */
    CSS_UNREADABLE = 51,     /* the last control timestamp can't be read */
    CSS_UNAVAILABLE = 52,    /* the timeline isn't being presented */
    CSS_NO_RATE = 53,        /* the timeline's tick rate isn't known */
    CSS_NULL = 54,           /* the property is null, or there is no such timeline */
    CSS_NEVER = 55           /* the tick isn't shown, as far as is known now */
};

/* lo <= it <= hi, in ns */
typedef struct css_span { int64_t lo, hi; } css_span;

/* lo <= tick <= hi. The tick is a whole one, rounded down. It goes on by
 * speed * units_per_second / units_per_tick a second: at `wall` ns of the television's wall clock it is `content`. */
typedef struct css_position {
    int64_t lo, hi;
    int64_t content;
    uint64_t wall;
    uint32_t units_per_tick, units_per_second;
    int32_t speed; /* 0 is a pause, below 0 it goes backward */
} css_position;

/* units_per_second / units_per_tick ticks a second */
typedef struct css_rate { uint32_t units_per_tick, units_per_second; } css_rate;

/* readings of the own clock, in ns */
typedef struct css_readings { uint64_t from, to; } css_readings;

/* one end of a presentation window: tick `content` at `wall` ns, or however early or late */
typedef struct css_bound {
    int64_t content; /* at most 18 digits */
    uint64_t wall;   /* below 2^63 */
    bool infinite;
} css_bound;

/* an answer of the wall clock, as a snapshot keeps it */
typedef struct css_answer {
    uint64_t t1, t2, t3, t4, precision;
    uint32_t error;
} css_answer;

/* What positions go by, in plain numbers: copy it as you like. */
#define CSS_ANSWERS 4
typedef struct css_snapshot {
    uint64_t floor; /* the least reading that may be handed */
    uint64_t precision;
    uint32_t error, count;
    css_answer answers[CSS_ANSWERS]; /* `count` of them */
    int64_t content;
    uint64_t wall;
    int32_t speed;
    uint32_t units_per_tick, units_per_second;
} css_snapshot;

CSS_ASSERT(sizeof(css_companion) == 16 + sizeof(void *) && offsetof(css_companion, at) == 16, "css_companion");
CSS_ASSERT(sizeof(css_span) == 16 && sizeof(css_readings) == 16, "two numbers of 64 bits");
CSS_ASSERT(sizeof(css_rate) == 8, "two numbers of 32 bits");
CSS_ASSERT(sizeof(css_position) == 48 && offsetof(css_position, speed) == 40, "css_position");
CSS_ASSERT(sizeof(css_bound) == 24 && offsetof(css_bound, infinite) == 16, "css_bound");
CSS_ASSERT(sizeof(css_answer) == 48 && offsetof(css_answer, error) == 40, "css_answer");
CSS_ASSERT(sizeof(css_snapshot) == 248 && offsetof(css_snapshot, answers) == 24, "css_snapshot");
CSS_ASSERT(offsetof(css_snapshot, content) == 216 && offsetof(css_snapshot, speed) == 232, "css_snapshot");

enum css_property {
    CSS_PROTOCOL_VERSION = 0, CSS_MRS_URL = 1, CSS_CONTENT_ID = 2, CSS_CONTENT_ID_STATUS = 3,
    CSS_PRESENTATION_STATUS = 4, CSS_WC_URL = 5, CSS_TS_URL = 6, CSS_TE_URL = 7
};

/* A text goes to `out`, which has room for `room` bytes, and its length to *used: also where that is more than `room`,
 * and the code is CSS_NO_ROOM. So NULL and 0 ask for the length. No zero is put behind a text: what is there stays. */

uint32_t css_companion_version(void);

/* ---- life
 * selector: the timeline that you want, as "urn:dvb:css:timeline:pts". stem: how the content id has to begin; empty for
 * any. UTF-8, at most 262,144 bytes each. error: of the own oscillator, in 1/256 ppm, at most 2,560,000. precision: of
 * the own readings, in ns, at most 10^9. Where *c has a companion, it is freed once the new one is made. */
uint32_t css_companion_new(css_companion *c, const uint8_t *selector, size_t selector_len,
                           const uint8_t *stem, size_t stem_len, uint32_t error, uint64_t precision);
/* Free twice is fine. After it each call that needs a companion answers CSS_CLOSED. */
void css_companion_free(css_companion *c);
/* The machine slept: all requests and responses are forgotten, and nothing else. */
uint32_t css_companion_slept(css_companion *c);

/* ---- the wall clock, over UDP to wcUrl. Readings are ns below 2^32 seconds, and never fall. */
uint32_t css_companion_ask(css_companion *c, uint64_t reading, uint8_t request[32]);
/* CSS_DISAGREE: the response was accepted, and contradicts others that were since the last sleep. From then on wall,
 * agreed, position, lead, when, until and snapshot answer CSS_DISAGREE too, until `slept` or a new companion. The age
 * rises there. Neither css_snapshot_position nor `report` notices it. */
uint32_t css_companion_land(css_companion *c, const uint8_t *datagram, size_t len, uint64_t reading);
/* What the television's wall clock shows, by the narrowest response. */
uint32_t css_companion_wall(css_companion *c, uint64_t reading, css_span *wall);
/* What it shows by all responses accepted since the last sleep together: from the greatest lower end of their spans to
 * the least upper end. It lies in the span of each of them. */
uint32_t css_companion_agreed(css_companion *c, uint64_t reading, css_span *wall);

/* ---- the CII session. Texts of at most 262,144 bytes. */
uint32_t css_companion_cii(css_companion *c, const uint8_t *text, size_t len);
uint32_t css_companion_cii_field(css_companion *c, uint32_t property, uint8_t *out, size_t room, size_t *used);
uint32_t css_companion_cii_state(css_companion *c, uint8_t *out, size_t room, size_t *used);
/* What was refused, for a person. Where the last CII text was CSS_FIELD or CSS_MOVED: its property, as "wcUrl". Else,
 * while position answers CSS_UNREADABLE: why, as "Field contentTime" or "NotJson". CSS_NULL where there is neither. */
uint32_t css_companion_fault(css_companion *c, uint8_t *out, size_t room, size_t *used);
/* A timeline that the television lists, by its number from 0: its selector and its tick rate. CSS_NULL behind the last
 * one, and where none are listed. */
uint32_t css_companion_timeline(css_companion *c, size_t number, css_rate *rate,
                                uint8_t *out, size_t room, size_t *used);

/* ---- the TS session at tsUrl: call `setup` once it is open, send that text, and hand on each that comes. After
 * `ts_closed` position, lead and when answer CSS_SESSION_CLOSED. Open the session again then: where `setup` answers 0
 * it begins anew, and they answer CSS_NO_TIMESTAMP until a text comes. The wall clock and the state of CII stay. */
uint32_t css_companion_setup(css_companion *c, uint8_t *out, size_t room, size_t *used);
uint32_t css_companion_control(css_companion *c, const uint8_t *text, size_t len);
uint32_t css_companion_ts_closed(css_companion *c);
/* When you can present, as the text to send. It needs no companion. */
uint32_t css_companion_presentation(const css_bound *earliest, const css_bound *latest,
                                    uint8_t *out, size_t room, size_t *used);

/* ---- what it is for
 * A number that rises with each call that may change what wall, position, lead and when answer for the same reading:
 * new, slept, land, cii, setup, control and ts_closed, where they answer 0 or refuse a datagram or a text. While it is
 * the same, an answer that you have is still the answer at each reading that may be handed. `ask` raises the least of
 * these, and `when` and `until` tell readings from there on. `free` leaves the age, and the calls answer CSS_CLOSED. */
uint64_t css_companion_age(const css_companion *c);
uint32_t css_companion_position(css_companion *c, uint64_t reading, css_position *position);
/* By how many ns of the timeline somebody at the beginning of `tick` is ahead of the television; below 0 it is behind.
 * At speed 1 such a ns is one of the wall clock. The television's own place isn't rounded to a tick here. */
uint32_t css_companion_lead(css_companion *c, uint64_t reading, int64_t tick, css_span *lead);
/* When the television shows `tick`: at a reading from readings->from to readings->to, of all that may still be handed.
 * It is the least interval that the kept responses allow: at each of these readings the ticks of each of them have
 * `tick`. One response is kept for each error that the television declares. It goes by the last control timestamp and
 * the rate, so ask again after each text that was taken in, and nearer to the time, when the interval is narrower.
 * CSS_NEVER: at no reading, as on a pause or where the tick is past. */
uint32_t css_companion_when(css_companion *c, int64_t tick, css_readings *readings);
/* Until when the wall clock is known well enough: at each reading up to *reading `wall` is at most `width` ns wide. Ask
 * the television again by then. A nanosecond later each kept response alone is wider than `width` - 1 ns, before its
 * ends are rounded. CSS_NEVER: it is so wide already. */
uint32_t css_companion_until(css_companion *c, uint64_t width, uint64_t *reading);
/* When to do something next. *ask: the reading from which a request is due. That is at once where none was sent since
 * the start or the last sleep; a second after the last one where no response to it was accepted; and else the last
 * reading up to which `wall` is at most `width` ns wide, or 100 ms after the last request where that is later. *look:
 * the reading from which `tick` may be shown, as `when` tells it. Where that isn't known, or it isn't shown, it is the
 * greatest reading. So sleep until the lesser of the two, or until something comes. CSS_DISAGREE as `wall`. */
uint32_t css_companion_next(css_companion *c, uint64_t width, int64_t tick, uint64_t *ask, uint64_t *look);
/* A copy of what positions go by, for a thread that can't wait. Take a new one when the age rises. CSS_TOO_WIDE while
 * more than CSS_ANSWERS responses are kept, one for each error that the television declared. */
uint32_t css_companion_snapshot(css_companion *c, css_snapshot *snapshot);
/* What css_companion_position tells of the companion as it was. It can't know of responses that came since, nor that
 * they disagree: the age rises then, so drop the snapshot. It goes by the numbers alone, so any thread may call it
 * at any time, also once the companion is freed. Of numbers that css_companion_snapshot didn't fill it answers
 * CSS_RANGE, CSS_EARLY, CSS_NO_ANSWER or CSS_TOO_WIDE, or 0 and the position that they show. */
uint32_t css_snapshot_position(const css_snapshot *snapshot, uint64_t reading, css_position *position);
/* The line of a report, as `css companion` prints it. It goes by the narrowest response, also where they disagree. */
uint32_t css_companion_report(css_companion *c, uint64_t number, uint64_t reading,
                              uint8_t *out, size_t room, size_t *used);

/* A word for a code, for logs. */
uint32_t css_companion_words(uint32_t code, uint8_t *out, size_t room, size_t *used);

/* ---- clocks of Linux. They aren't proved. */
#ifdef CLOCK_MONOTONIC
static inline int64_t css_nanoseconds(clockid_t clock) {
    struct timespec t;
    clock_gettime(clock, &t);
    return (int64_t)t.tv_sec * 1000000000 + t.tv_nsec;
}
/* A reading of the own clock: nobody sets it, and it stands still while the machine sleeps. */
static inline uint64_t css_reading(void) { return (uint64_t)css_nanoseconds(CLOCK_MONOTONIC); }
#endif

#ifdef CLOCK_BOOTTIME
/* The most that the machine has slept by the last look. It begins as CSS_AWAKE, and each companion has its own. */
typedef struct css_sleep { int64_t most; } css_sleep;
#define CSS_AWAKE { INT64_MAX }
/* Whether the machine slept since the last look. Look before the calls of each turn, and say `slept` where it did.
 * CLOCK_BOOTTIME goes on in a sleep and CLOCK_MONOTONIC doesn't. Their difference is signed: between two readings of a
 * machine that never slept it can be below 0. */
static inline bool css_has_slept(css_sleep *sleep) {
    int64_t before = css_nanoseconds(CLOCK_MONOTONIC);
    int64_t boot = css_nanoseconds(CLOCK_BOOTTIME);
    int64_t after = css_nanoseconds(CLOCK_MONOTONIC);
    bool slept = boot - after > sleep->most;
    if (slept || boot - before < sleep->most) sleep->most = boot - before;
    return slept;
}
#endif

#ifdef __cplusplus
}
#endif
#endif
