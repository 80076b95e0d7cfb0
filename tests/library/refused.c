/* Each allocation is refused in turn: malloc, realloc and free are wrapped (-Wl,--wrap=..). After a refusal the same
 * call is made again, and the whole evening ends as without one, with no block left. Each call that takes no memory is
 * made too, and asks for none, whatever it answers. */
#include "css_companion.h"
#include <stdio.h>
#include <stdlib.h>
#include <string.h>

void *__real_malloc(size_t);
void *__real_realloc(void *, size_t);
void __real_free(void *);

static long left = -1, live, refused, asked;

static int fails(void) {
    asked++;
    if (left < 0 || left-- != 0) return 0;
    refused++;
    return 1;
}

void *__wrap_malloc(size_t n) {
    if (fails()) return NULL;
    live++;
    return __real_malloc(n);
}

void *__wrap_realloc(void *p, size_t n) {
    if (fails()) return NULL;
    live += !p;
    return __real_realloc(p, n);
}

void __wrap_free(void *p) {
    live -= p != NULL;
    __real_free(p);
}

static const uint8_t promise[32] = {0x00, 0x02, 0xe2, 0, 0, 0, 0,    0,    0, 0, 0, 0, 0, 0, 0x03, 0xe8,
                                    0,    0,    0,    0, 0, 0, 0x13, 0x88, 0, 0, 0, 0, 0, 0, 0x14, 0x50};
static const char *cii = "{\"contentId\":\"dvb://1.2.3\",\"wcUrl\":\"udp://192.168.1.5:5800\",\"timelines\":[{"
                         "\"timelineSelector\":\"urn:dvb:css:timeline:pts\",\"timelineProperties\":{"
                         "\"unitsPerTick\":1,\"unitsPerSecond\":90000}}]}";
static const char *control = "{\"contentTime\":\"900000\",\"timelineSpeedMultiplier\":1,\"wallClockTime\":\"0\"}";

#define TEXT(s) (const uint8_t *)(s), strlen(s)
#define TRY(call)                                                                                                      \
    do {                                                                                                               \
        uint32_t code = (call);                                                                                        \
        if (code == CSS_MEMORY) code = (call);                                                                         \
        if (code) return code * 1000 + __LINE__;                                                                       \
    } while (0)
/* takes no memory, so it is never made again */
#define IS(call, wanted)                                                                                               \
    do {                                                                                                               \
        long before = asked;                                                                                           \
        uint32_t code = (call);                                                                                        \
        if (code != (wanted) || asked != before) return (asked - before) * 1000000 + code * 1000 + __LINE__;           \
    } while (0)
#define DO(call) IS(call, CSS_DONE)

static uint8_t request[32], out[1024];
static size_t used;
static css_span span;
static css_readings when;
static css_snapshot copy;
static uint64_t last, look;

/* An answer of an error that was declared before, and datagrams that are refused. */
static int datagrams(css_companion *c) {
    uint8_t answer[32], changed[32];
    DO(css_companion_ask(c, 1700, request));
    memcpy(answer, promise, 32);
    answer[1] = 1;
    DO(css_companion_land(c, answer, 32, 1700));
    IS(css_companion_land(c, answer, 31, 1700), CSS_UNDECODABLE);
    IS(css_companion_land(c, request, 32, 1700), CSS_NOT_AN_ANSWER);
    memcpy(changed, answer, 32);
    changed[15]++;
    IS(css_companion_land(c, changed, 32, 1700), CSS_UNASKED);
    memcpy(changed, answer, 32);
    changed[30] = 0x90;
    IS(css_companion_land(c, changed, 32, 1700), CSS_IMPOSSIBLE);
    IS(css_companion_land(c, answer, 32, 5), CSS_EARLY);
    return 0;
}

/* A second declared error, of which an answer is kept beside the first. */
static int another(css_companion *c) {
    uint8_t answer[32];
    css_span both;
    DO(css_companion_ask(c, 1650, request));
    memcpy(answer, promise, 32);
    answer[1] = 1, answer[6] = 1;
    answer[14] = 1650 >> 8, answer[15] = 1650 & 255;
    answer[22] = 5400 >> 8, answer[23] = 5400 & 255;
    answer[30] = 5410 >> 8, answer[31] = 5410 & 255;
    DO(css_companion_agreed(c, 1650, &both));
    css_span first = both;
    TRY(css_companion_land(c, answer, 32, 1690));
    DO(css_companion_agreed(c, 1690, &both));
    IS(both.hi - both.lo > first.hi - first.lo, 0);
    return 0;
}

/* What is told by numbers: done, and at a wrong reading. */
static int numbers(css_companion *c, css_position *p) {
    DO(css_companion_wall(c, 1700, &span));
    IS(css_companion_wall(c, 5, &span), CSS_EARLY);
    DO(css_companion_position(c, 1700, p));
    IS(css_companion_position(c, UINT64_MAX, p), CSS_RANGE);
    DO(css_companion_lead(c, 1700, 900000, &span));
    DO(css_companion_when(c, 990000, &when));
    IS(css_companion_when(c, 0, &when), CSS_NEVER);
    DO(css_companion_until(c, 1000, &last));
    IS(css_companion_until(c, 0, &last), CSS_NEVER);
    DO(css_companion_agreed(c, 1700, &span));
    DO(css_companion_next(c, 1000, 990000, &last, &look));
    DO(css_companion_snapshot(c, &copy));
    DO(css_snapshot_position(&copy, 1700, p));
    IS(css_snapshot_position(&copy, 5, p), CSS_EARLY);
    IS(css_companion_age(c) == 0, 0);
    IS(css_companion_version(), CSS_VERSION);
    return 0;
}

/* Texts that were kept. */
static int texts(css_companion *c) {
    css_rate rate;
    DO(css_companion_cii_field(c, CSS_WC_URL, out, sizeof out, &used));
    IS(css_companion_cii_field(c, CSS_WC_URL, out, 1, &used), CSS_NO_ROOM);
    IS(css_companion_cii_field(c, CSS_TE_URL, out, sizeof out, &used), CSS_NULL);
    DO(css_companion_timeline(c, 0, &rate, out, sizeof out, &used));
    IS(css_companion_timeline(c, 1, &rate, out, sizeof out, &used), CSS_NULL);
    DO(css_companion_words(CSS_MEMORY, out, sizeof out, &used));
    return 0;
}

/* Once the session is closed, after a sleep, and without a companion. */
static int ends(css_companion *c, css_position *p) {
    DO(css_companion_ts_closed(c));
    IS(css_companion_position(c, 1700, p), CSS_SESSION_CLOSED);
    IS(css_companion_when(c, 990000, &when), CSS_SESSION_CLOSED);
    DO(css_companion_slept(c));
    IS(css_companion_wall(c, 1701, &span), CSS_NO_ANSWER);
    IS(css_companion_until(c, 1000, &last), CSS_NO_ANSWER);
    IS(css_companion_snapshot(c, &copy), CSS_NO_ANSWER);
    IS((css_companion_free(c), 0), 0);
    IS((css_companion_free(c), 0), 0);
    IS(css_companion_slept(c), CSS_CLOSED);
    IS(css_companion_cii(c, TEXT(cii)), CSS_CLOSED);
    return live ? __LINE__ : 0;
}

static int evening(css_companion *c, css_position *p) {
    css_bound earliest = {1, 2, false}, latest = {1, 2, true};
    TRY(css_companion_new(c, TEXT("urn:dvb:css:timeline:temi:1:1"), TEXT(""), 0, 0));
    TRY(css_companion_new(c, TEXT("urn:dvb:css:timeline:pts"), TEXT("dvb://"), 0, 0));
    DO(css_companion_ask(c, 1000, request));
    TRY(css_companion_land(c, promise, 32, 1600));
    TRY(css_companion_cii(c, TEXT(cii)));
    TRY(css_companion_cii_state(c, out, sizeof out, &used));
    TRY(css_companion_setup(c, out, sizeof out, &used));
    TRY(css_companion_control(c, TEXT("{}")));
    TRY(css_companion_fault(c, out, sizeof out, &used));
    TRY(css_companion_control(c, TEXT(control)));
    TRY(css_companion_report(c, 1, 1600, out, sizeof out, &used));
    TRY(css_companion_presentation(&earliest, &latest, out, sizeof out, &used));
    DO(css_companion_position(c, 1600, p));
    return another(c);
}

int main(void) {
    for (long n = 0;; n++) {
        css_companion c = CSS_NONE;
        css_position p = {0};
        refused = 0;
        left = n;
        int told = evening(&c, &p);
        left = -1;
        bool is_told = p.lo == 900000 && p.hi == 900000;
        if (!told) told = datagrams(&c);
        if (!told) told = numbers(&c, &p);
        if (!told) told = texts(&c);
        if (!told) told = ends(&c, &p);
        if (told || live || !is_told) {
            printf("allocation %ld: %d, %ld blocks\n", n, told, live);
            return 1;
        }
        if (!refused) {
            printf("each of %ld allocations was refused in turn\n", n);
            return 0;
        }
    }
}
