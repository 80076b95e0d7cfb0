/* One exchange of the wall clock, both sessions and misuse. The status is 0 where all is as it should be. */
#include "css_companion.h"
#include <inttypes.h>
#include <stdio.h>
#include <stdlib.h>
#include <string.h>

static int wrong;
static css_snapshot copy;

#define IS(call, code)                                                                                                 \
    do {                                                                                                               \
        uint64_t got = (call);                                                                                         \
        if (got != (uint64_t)(code)) {                                                                                 \
            wrong = 1;                                                                                                 \
            printf("line %d: %s is %" PRIu64 ", not %" PRIu64 "\n", __LINE__, #call, got, (uint64_t)(code));           \
        }                                                                                                              \
    } while (0)
#define TEXT(s) (const uint8_t *)(s), strlen(s)

static const uint8_t answer[32] = {0x00, 0x01, 0xe2, 0, 0, 0, 0,    0,    0, 0, 0, 0, 0, 0, 0x03, 0xe8,
                                   0,    0,    0,    0, 0, 0, 0x13, 0x88, 0, 0, 0, 0, 0, 0, 0x14, 0x50};
static const char *cii =
    "{\"protocolVersion\":\"1.1\",\"contentId\":\"dvb://233a.1004.1044\",\"contentIdStatus\":\"final\","
    "\"presentationStatus\":\"okay\",\"wcUrl\":\"udp://192.168.1.5:5800\",\"tsUrl\":\"ws://192.168.1.8:5815\","
    "\"timelines\":[{\"timelineSelector\":\"urn:dvb:css:timeline:pts\","
    "\"timelineProperties\":{\"unitsPerTick\":1,\"unitsPerSecond\":90000}}]}";
static const char *control = "{\"contentTime\":\"900000\",\"timelineSpeedMultiplier\":1,\"wallClockTime\":\"0\"}";

/* the first example of `css replay`: the span is 5197 to 5603 */
static void wall_clock(css_companion *c) {
    uint8_t request[32];
    css_span wall = {0, 0};
    css_position position;
    uint64_t last;
    IS(css_companion_version(), CSS_VERSION);
    IS(css_companion_new(c, TEXT("urn:dvb:css:timeline:pts"), TEXT("dvb://"), 0, 0), CSS_DONE);
    IS(css_companion_wall(c, 900, &wall), CSS_NO_ANSWER);
    IS(css_companion_position(c, 900, &position), CSS_NO_ANSWER);
    IS(css_companion_lead(c, 900, 5, &wall), CSS_NO_ANSWER);
    IS(css_companion_until(c, 5, &last), CSS_NO_ANSWER);
    IS(css_companion_snapshot(c, &copy), CSS_NO_ANSWER);
    IS(css_companion_ask(c, 1000, request), CSS_DONE);
    IS(memcmp(request + 8, answer + 8, 8) != 0, 0);
    IS(css_companion_land(c, answer, 31, 9000), CSS_UNDECODABLE); /* it raises no least reading */
    IS(css_companion_land(c, NULL, 0, 1600), CSS_UNDECODABLE);
    IS(css_companion_land(c, request, 32, 1600), CSS_NOT_AN_ANSWER);
    IS(css_companion_land(c, answer, 32, 1600), CSS_DONE);
    IS(css_companion_wall(c, 9000, &wall), CSS_DONE); /* nor does this */
    IS(css_companion_wall(c, 1599, &wall), CSS_EARLY);
    IS(css_companion_wall(c, 1600, &wall), CSS_DONE);
    IS(wall.lo == 5197 && wall.hi == 5603, 1);
    IS(css_companion_ask(c, 5, request), CSS_EARLY);
    IS(css_companion_ask(c, UINT64_MAX, request), CSS_RANGE);
    IS(css_companion_ask(c, 4294967296000000000u, request), CSS_RANGE);
    IS(css_companion_position(c, 1600, &position), CSS_NO_TIMESTAMP);
    IS(css_companion_snapshot(c, &copy), CSS_NO_TIMESTAMP);
}

/* what was refused, in words */
static void faults(css_companion *c, const char *words) {
    uint8_t out[64];
    size_t used = 0;
    IS(css_companion_fault(c, out, sizeof out, &used), words ? CSS_DONE : CSS_NULL);
    if (!words) return;
    IS(used == strlen(words) && !memcmp(out, words, used), 1);
    IS(css_companion_fault(c, out, strlen(words) - 1, &used), CSS_NO_ROOM);
    IS(used, strlen(words));
}

static void listed(css_companion *c) {
    uint8_t out[64];
    size_t used = 0;
    css_rate rate = {0, 0};
    IS(css_companion_timeline(c, 0, &rate, NULL, 0, &used), CSS_NO_ROOM);
    IS(used == 24 && rate.units_per_second == 0, 1);
    IS(css_companion_timeline(c, 0, &rate, out, sizeof out, &used), CSS_DONE);
    IS(used == 24 && !memcmp(out, "urn:dvb:css:timeline:pts", 24), 1);
    IS(rate.units_per_tick == 1 && rate.units_per_second == 90000, 1);
    IS(css_companion_timeline(c, 1, &rate, out, sizeof out, &used), CSS_NULL);
    IS(css_companion_timeline(c, SIZE_MAX, &rate, out, sizeof out, &used), CSS_NULL);
}

static void content(css_companion *c) {
    uint8_t out[2048];
    size_t used;
    css_rate rate;
    IS(css_companion_timeline(c, 0, &rate, out, sizeof out, &used), CSS_NULL);
    IS(css_companion_cii_field(c, CSS_WC_URL, out, sizeof out, &used), CSS_NULL);
    faults(c, NULL);
    IS(css_companion_cii(c, TEXT("{")), CSS_NOT_JSON);
    faults(c, NULL);
    IS(css_companion_cii(c, NULL, 0), CSS_NOT_JSON);
    IS(css_companion_cii(c, TEXT("[]")), CSS_NOT_OBJECT);
    IS(css_companion_cii(c, TEXT("{\"wcUrl\":5}")), CSS_FIELD);
    faults(c, "wcUrl");
    IS(css_companion_cii(c, TEXT(cii)), CSS_DONE);
    faults(c, NULL);
    IS(css_companion_cii(c, TEXT("{\"tsUrl\":\"ws://10.0.0.1:1\"}")), CSS_MOVED);
    faults(c, "tsUrl");
    IS(css_companion_cii(c, TEXT("{\"wcUrl\":\"udp://10.0.0.1:1\"}")), CSS_MOVED);
    faults(c, "wcUrl");
    IS(css_companion_cii(c, TEXT("{}")), CSS_DONE);
    IS(css_companion_cii_field(c, CSS_WC_URL, out, sizeof out, &used), CSS_DONE);
    IS(used == 22 && !memcmp(out, "udp://192.168.1.5:5800", 22), 1);
    IS(css_companion_cii_field(c, 8, out, sizeof out, &used), CSS_RANGE);
    used = 0;
    IS(css_companion_cii_field(c, CSS_WC_URL, out, 21, &used), CSS_NO_ROOM);
    IS(used, 22);
    IS(css_companion_cii_state(c, out, sizeof out, &used), CSS_DONE);
    listed(c);
    used = 0;
    IS(css_companion_setup(c, NULL, 0, &used), CSS_NO_ROOM);
    size_t needed = used;
    IS(css_companion_setup(c, out, needed, &used), CSS_DONE);
    IS(used, needed);
}

/* a copy tells what the companion tells */
static void copied(css_companion *c) {
    css_position p, q;
    IS(css_companion_snapshot(c, &copy), CSS_DONE);
    IS(copy.count, 1);
    for (uint64_t reading = 1600; reading < 4000000000000000000u / 3; reading *= 3) {
        IS(css_companion_position(c, reading, &p), CSS_DONE);
        IS(css_snapshot_position(&copy, reading, &q), CSS_DONE);
        IS(p.lo == q.lo && p.hi == q.hi && p.content == q.content && p.wall == q.wall && p.speed == q.speed, 1);
        IS(p.units_per_tick == q.units_per_tick && p.units_per_second == q.units_per_second, 1);
    }
}

/* each of its numbers one past its range */
#define BAD(number, value)                                                                                             \
    do {                                                                                                               \
        bad = copy;                                                                                                    \
        bad.number = (value);                                                                                          \
        IS(css_snapshot_position(&bad, 1600, &p), CSS_RANGE);                                                          \
    } while (0)
static void miscopied(void) {
    css_snapshot bad;
    css_position p = {7, 7, 7, 7, 7, 7, 7};
    const uint64_t limit = 4294967296000000000u;
    BAD(error, 2560001);
    BAD(precision, 1000000001);
    BAD(count, 5);
    BAD(answers[0].t1, limit);
    BAD(answers[0].t2, limit);
    BAD(answers[0].t3, limit);
    BAD(answers[0].t4, limit);
    BAD(answers[0].t3, limit - 1); /* the television answered long after it landed */
    BAD(answers[0].precision, 1073741824000000001);
    BAD(answers[0].error, 25600001);
    BAD(wall, (uint64_t)1 << 63);
    BAD(speed, 65);
    BAD(speed, -65);
    BAD(units_per_tick, 0);
    BAD(units_per_tick, 1000000001);
    BAD(units_per_second, 0);
    BAD(units_per_second, 1000000001);
    IS(css_snapshot_position(&copy, limit, &p), CSS_RANGE);
    IS(css_snapshot_position(&copy, 1599, &p), CSS_EARLY);
    bad = copy;
    bad.count = 0;
    IS(css_snapshot_position(&bad, 1600, &p), CSS_NO_ANSWER);
    IS(p.lo == 7 && p.hi == 7 && p.content == 7 && p.wall == 7 && p.speed == 7, 1);
}

/* at 500 ppm the span is narrow enough up to a reading, and 2 s later it is wider */
static void narrow(void) {
    css_companion c = CSS_NONE;
    uint8_t request[32];
    css_span wall;
    uint64_t last;
    IS(css_companion_new(&c, NULL, 0, NULL, 0, 128000, 1000), CSS_DONE);
    IS(css_companion_ask(&c, 1000, request), CSS_DONE);
    IS(css_companion_land(&c, answer, 32, 1600), CSS_DONE);
    IS(css_companion_until(&c, 0, &last), CSS_NEVER);
    IS(css_companion_until(&c, 1000000, &last), CSS_DONE);
    IS(css_companion_wall(&c, last, &wall), CSS_DONE);
    IS(wall.hi - wall.lo <= 1000000, 1);
    IS(css_companion_wall(&c, last + 2000000000, &wall), CSS_DONE);
    IS(wall.hi - wall.lo > 1000000, 1);
    css_companion_free(&c);
}

static void timeline(css_companion *c) {
    css_position p;
    css_span lead;
    css_readings when;
    uint8_t out[256];
    size_t used;
    IS(css_companion_control(c, TEXT(control)), CSS_DONE);
    IS(css_companion_position(c, 1600, &p), CSS_DONE);
    IS(p.lo == 900000 && p.hi == 900000 && p.speed == 1 && p.units_per_second == 90000 && p.units_per_tick == 1, 1);
    IS(css_companion_lead(c, 1600, 900000, &lead), CSS_DONE);
    IS(lead.lo == -5603 && lead.hi == -5197, 1);
    IS(css_companion_lead(c, 1600, 900009, &lead), CSS_DONE);
    IS(lead.lo == 94397 && lead.hi == 94803, 1);
    IS(css_companion_lead(c, 1600, INT64_MAX, &lead), CSS_TOO_WIDE);
    IS(css_companion_lead(c, 5, 900000, &lead), CSS_EARLY);
    IS(css_companion_when(c, 1000000, &when), CSS_DONE);
    for (int side = 0; side < 2; side++) { /* inside it is shown, outside it isn't */
        IS(css_companion_position(c, side ? when.to : when.from, &p), CSS_DONE);
        IS(p.lo <= 1000000 && 1000000 <= p.hi, 1);
        IS(css_companion_position(c, side ? when.to + 1 : when.from - 1, &p), CSS_DONE);
        IS(p.lo <= 1000000 && 1000000 <= p.hi, 0);
    }
    IS(css_companion_when(c, 899999, &when), CSS_NEVER);
    IS(css_companion_when(c, INT64_MAX, &when), CSS_NEVER);
    copied(c);
    IS(css_companion_report(c, 7, 1600, out, sizeof out, &used), CSS_DONE);
    IS(used == 22 && !memcmp(out, "7 ticks 900000 900000\n", 22), 1);
    IS(css_companion_control(c, TEXT("{\"contentTime\":5}")), CSS_DONE);
    IS(css_companion_position(c, 1600, &p), CSS_UNREADABLE);
    faults(c, "Field contentTime");
    IS(css_companion_control(c, TEXT("oh")), CSS_DONE);
    IS(css_companion_position(c, 1600, &p), CSS_UNREADABLE);
    faults(c, "NotJson");
    uint64_t age = css_companion_age(c);
    IS(css_companion_ts_closed(c), CSS_DONE);
    IS(css_companion_age(c), age + 1);
    IS(css_companion_position(c, 1600, &p), CSS_SESSION_CLOSED);
    IS(css_companion_age(c), age + 1);
    IS(css_companion_lead(c, 1600, 900000, &lead), CSS_SESSION_CLOSED);
    IS(css_companion_setup(c, NULL, 0, &used), CSS_NO_ROOM);
    IS(css_companion_position(c, 1600, &p), CSS_SESSION_CLOSED);
    IS(css_companion_age(c), age + 1);
    IS(css_companion_setup(c, out, sizeof out, &used), CSS_DONE); /* it was opened again */
    IS(css_companion_age(c), age + 2);
    IS(css_companion_position(c, 1600, &p), CSS_NO_TIMESTAMP);
    IS(css_companion_lead(c, 1600, 900000, &lead), CSS_NO_TIMESTAMP);
    IS(css_companion_when(c, 1000000, &when), CSS_NO_TIMESTAMP);
    IS(css_companion_control(c, TEXT(control)), CSS_DONE);
    IS(css_companion_position(c, 1600, &p), CSS_DONE);
    IS(p.lo == 900000 && p.hi == 900000, 1);
}

/* Two kept answers that declare different errors, where the wall clock is 3800 ns ahead. It is 1,000,000 to 1,011,111
 * while the tick is shown. By the first answer it is 3597 to 4003 ahead. By the second it is 3767 to 4103 at first, and
 * 1 ppm more or less from then on. So the first tells the begin, and the second the end. */
static void two_answers(void) {
    css_companion c = CSS_NONE;
    uint8_t request[32], second[32];
    css_readings when;
    IS(css_companion_new(&c, TEXT("urn:dvb:css:timeline:pts"), NULL, 0, 0, 0), CSS_DONE);
    IS(css_companion_control(&c, TEXT(control)), CSS_DONE);
    IS(css_companion_when(&c, 900090, &when), CSS_NO_ANSWER);
    IS(css_companion_ask(&c, 1000, request), CSS_DONE);
    IS(css_companion_land(&c, answer, 32, 1600), CSS_DONE);
    IS(css_companion_when(&c, 900090, &when), CSS_DONE);
    IS(when.from, 995997);
    IS(when.to, 1007514);
    IS(css_companion_ask(&c, 2000, request), CSS_DONE);
    memcpy(second, answer, 32);
    second[6] = 1;                        /* max_freq_error: 256, which is 1 ppm */
    second[14] = 0x07, second[15] = 0xd0; /* originate: 2000 */
    second[22] = 0x17, second[23] = 0xd4; /* receive: 6100 */
    second[30] = 0x18, second[31] = 0x06; /* transmit: 6150 */
    IS(css_companion_land(&c, second, 32, 2380), CSS_DONE);
    IS(css_companion_when(&c, 900090, &when), CSS_DONE);
    IS(when.from, 995997);
    IS(when.to, 1007346);
    IS(when.from <= 1000000 - 3800 && 1011111 - 3800 <= when.to, 1);
    css_companion_free(&c);
}

/* A television that sets its clock 4000 ns forward: from the first answer that contradicts the one before it nothing is
 * told, until a sleep. Its own answer then stands alone. */
static void set_forward(void) {
    css_companion c = CSS_NONE;
    uint8_t request[32], second[32], out[64];
    css_span wall, both;
    css_position p;
    css_readings when;
    css_snapshot before;
    size_t used;
    uint64_t age, ask = 7, look = 7;
    IS(css_companion_new(&c, TEXT("urn:dvb:css:timeline:pts"), NULL, 0, 0, 0), CSS_DONE);
    IS(css_companion_control(&c, TEXT(control)), CSS_DONE);
    IS(css_companion_agreed(&c, 900, &both), CSS_NO_ANSWER);
    IS(css_companion_ask(&c, 1000, request), CSS_DONE);
    IS(css_companion_land(&c, answer, 32, 1600), CSS_DONE);
    IS(css_companion_agreed(&c, 1600, &both), CSS_DONE);
    IS(both.lo == 5197 && both.hi == 5603, 1);
    IS(css_companion_agreed(&c, 900, &both), CSS_EARLY);
    IS(css_companion_snapshot(&c, &before), CSS_DONE);
    memcpy(second, answer, 32);
    second[14] = 0x07, second[15] = 0xd0; /* originate: 2000 */
    second[22] = 0x27, second[23] = 0x74; /* receive: 10100 */
    second[30] = 0x27, second[31] = 0xa6; /* transmit: 10150 */
    IS(css_companion_ask(&c, 2000, request), CSS_DONE);
    age = css_companion_age(&c);
    IS(css_companion_land(&c, second, 32, 2380), CSS_DISAGREE);
    IS(css_companion_age(&c), age + 1);
    IS(css_companion_wall(&c, 2380, &wall), CSS_DISAGREE);
    IS(css_companion_wall(&c, 5, &wall), CSS_EARLY);
    IS(css_companion_agreed(&c, 2380, &both), CSS_DISAGREE);
    IS(css_companion_position(&c, 2380, &p), CSS_DISAGREE);
    IS(css_companion_lead(&c, 2380, 900000, &wall), CSS_DISAGREE);
    IS(css_companion_when(&c, 900090, &when), CSS_DISAGREE);
    IS(css_companion_until(&c, 1000, &ask), CSS_DISAGREE);
    IS(css_companion_snapshot(&c, &copy), CSS_DISAGREE);
    IS(css_companion_next(&c, 1000, 900090, &ask, &look), CSS_DISAGREE);
    IS(ask == 7 && look == 7, 1);
    IS(css_snapshot_position(&before, 2380, &p), CSS_DONE); /* it can't know */
    IS(css_companion_report(&c, 7, 2380, out, sizeof out, &used), CSS_DONE);
    IS(css_companion_slept(&c), CSS_DONE);
    IS(css_companion_wall(&c, 2381, &wall), CSS_NO_ANSWER);
    IS(css_companion_ask(&c, 3000, request), CSS_DONE);
    second[14] = 0x0b, second[15] = 0xb8; /* 3000 */
    second[22] = 0x2b, second[23] = 0x5c; /* 11100 */
    second[30] = 0x2b, second[31] = 0x8e; /* 11150 */
    IS(css_companion_land(&c, second, 32, 3380), CSS_DONE);
    IS(css_companion_wall(&c, 3380, &wall), CSS_DONE);
    IS(wall.lo <= 11330 && 11330 <= wall.hi, 1);
    css_companion_free(&c);
}

/* Two answers: what they say together is narrower than each, and when to ask again. */
static void together(void) {
    css_companion c = CSS_NONE;
    uint8_t request[32], second[32];
    css_span wall, both;
    css_readings when;
    uint64_t ask, look, last;
    const uint64_t greatest = 4294967295999999999u;
    IS(css_companion_new(&c, TEXT("urn:dvb:css:timeline:pts"), NULL, 0, 0, 0), CSS_DONE);
    IS(css_companion_next(&c, 1000, 900090, &ask, &look), CSS_DONE);
    IS(ask, 0);
    IS(look, greatest);
    IS(css_companion_control(&c, TEXT(control)), CSS_DONE);
    IS(css_companion_ask(&c, 1000, request), CSS_DONE);
    IS(css_companion_next(&c, 1000, 900090, &ask, &look), CSS_DONE);
    IS(ask, 1000001000); /* a second later, where no answer comes */
    IS(css_companion_land(&c, answer, 32, 1600), CSS_DONE);
    IS(css_companion_next(&c, 1000, 900090, &ask, &look), CSS_DONE);
    IS(ask >= 100001000, 1); /* both clocks are perfect: it stays as narrow */
    IS(css_companion_until(&c, 1000, &last), CSS_DONE);
    IS(ask, last > 100001000 ? last : 100001000);
    IS(css_companion_when(&c, 900090, &when), CSS_DONE);
    IS(look, when.from);
    IS(css_companion_next(&c, 0, 899999, &ask, &look), CSS_DONE);
    IS(ask, 100001000); /* it is wider already */
    IS(look, greatest); /* it is past */
    IS(css_companion_ask(&c, 2000, request), CSS_DONE);
    IS(css_companion_next(&c, 1000, 900090, &ask, &look), CSS_DONE);
    IS(ask, 1000002000);
    memcpy(second, answer, 32);
    second[14] = 0x07, second[15] = 0xd0; /* originate: 2000 */
    second[22] = 0x17, second[23] = 0xd4; /* receive: 6100 */
    second[30] = 0x18, second[31] = 0x06; /* transmit: 6150 */
    IS(css_companion_land(&c, second, 32, 2380), CSS_DONE);
    IS(css_companion_wall(&c, 2380, &wall), CSS_DONE);
    IS(css_companion_agreed(&c, 2380, &both), CSS_DONE);
    IS(wall.lo <= both.lo && both.hi <= wall.hi && both.hi - both.lo < wall.hi - wall.lo, 1);
    IS(both.lo <= 2380 + 3800 && 2380 + 3800 <= both.hi, 1);
    IS(css_companion_slept(&c), CSS_DONE);
    IS(css_companion_next(&c, 1000, 900090, &ask, &look), CSS_DONE);
    IS(ask, 2380); /* at once: the least reading that may be handed */
    IS(look, greatest);
    css_companion_free(&c);
}

/* A television that declares five errors in turn: one response of each is kept, and all calls go on. */
static void five_errors(void) {
    css_companion c = CSS_NONE;
    uint8_t request[32], in[32];
    css_span wall;
    css_position p;
    css_readings when;
    css_snapshot five;
    uint64_t last;
    IS(css_companion_new(&c, TEXT("urn:dvb:css:timeline:pts"), NULL, 0, 0, 0), CSS_DONE);
    IS(css_companion_control(&c, TEXT(control)), CSS_DONE);
    for (int k = 0; k < 5; k++) { /* the wall clock is 4000 ns ahead */
        uint16_t ask = 1000 + 1000 * k, receive = ask + 4100, transmit = receive + 50;
        IS(css_companion_ask(&c, ask, request), CSS_DONE);
        memcpy(in, answer, 32);
        in[6] = k;
        in[14] = ask >> 8, in[15] = ask;
        in[22] = receive >> 8, in[23] = receive;
        in[30] = transmit >> 8, in[31] = transmit;
        IS(css_companion_land(&c, in, 32, ask + 300), CSS_DONE);
        IS(css_companion_wall(&c, ask + 300, &wall), CSS_DONE);
        IS(wall.lo <= ask + 4300 && ask + 4300 <= wall.hi, 1);
        IS(css_companion_snapshot(&c, &five), k < 4 ? CSS_DONE : CSS_TOO_WIDE);
    }
    IS(css_companion_position(&c, 5300, &p), CSS_DONE);
    IS(css_companion_when(&c, 900090, &when), CSS_DONE); /* from 1000000 to 1011111 of the wall clock */
    IS(when.from <= 1000000 - 4000 && 1011111 - 4000 <= when.to, 1);
    IS(css_companion_until(&c, 1000, &last), CSS_DONE);
    IS(css_companion_wall(&c, last, &wall), CSS_DONE);
    IS(wall.hi - wall.lo <= 1000, 1);
    IS(css_companion_slept(&c), CSS_DONE);
    IS(css_companion_snapshot(&c, &five), CSS_NO_ANSWER);
    css_companion_free(&c);
}

static void windows(void) {
    uint8_t out[512];
    size_t used;
    css_bound early = {900000, 5, false}, late = {900000, 0, true};
    IS(css_companion_presentation(&early, &late, out, sizeof out, &used), CSS_DONE);
    early.wall = (uint64_t)1 << 63;
    IS(css_companion_presentation(&early, &late, out, sizeof out, &used), CSS_RANGE);
    early = (css_bound){1000000000000000000, 5, false};
    IS(css_companion_presentation(&early, &late, out, sizeof out, &used), CSS_RANGE);
}

/* each number one past its range, and texts of the greatest length and one more */
static void limits(css_companion *c) {
    uint8_t request[32];
    css_position position;
    IS(css_companion_slept(c), CSS_DONE);
    IS(css_companion_position(c, 1700, &position), CSS_NO_ANSWER);
    IS(css_companion_land(c, answer, 32, 1700), CSS_UNASKED);
    IS(css_companion_ask(c, 1000, request), CSS_EARLY);
    IS(css_companion_ask(c, 1700, request), CSS_DONE);
    uint8_t *big = malloc(262145);
    memset(big, ' ', 262145);
    memcpy(big, "{}", 2);
    IS(css_companion_cii(c, big, 262144), CSS_DONE);
    IS(css_companion_cii(c, big, 262145), CSS_RANGE);
    IS(css_companion_control(c, big, 262145), CSS_RANGE);
    IS(css_companion_new(c, big, 262145, NULL, 0, 0, 0), CSS_RANGE);
    free(big);
    IS(css_companion_new(c, TEXT("\xff"), NULL, 0, 0, 0), CSS_NOT_UTF8);
    IS(css_companion_new(c, NULL, 0, NULL, 0, 2560001, 0), CSS_RANGE);
    IS(css_companion_new(c, NULL, 0, NULL, 0, 0, 1000000001), CSS_RANGE);
    IS(css_companion_ask(c, 1800, request), CSS_DONE); /* the old one is still there */
    IS(css_companion_new(c, NULL, 0, NULL, 0, 2560000, 1000000000), CSS_DONE);
}

static void closed(css_companion *c) {
    uint8_t out[256];
    size_t used;
    css_span span;
    css_position position;
    css_readings when;
    css_rate rate;
    uint64_t last, look;
    css_companion_free(c);
    css_companion_free(c);
    IS(css_snapshot_position(&copy, 1600, &position), CSS_DONE);
    IS(position.lo == 900000 && position.hi == 900000, 1);
    IS(css_companion_ask(c, 1800, out), CSS_CLOSED);
    IS(css_companion_land(c, answer, 32, 1800), CSS_CLOSED);
    IS(css_companion_wall(c, 1800, &span), CSS_CLOSED);
    IS(css_companion_position(c, 1800, &position), CSS_CLOSED);
    IS(css_companion_lead(c, 1800, 1, &span), CSS_CLOSED);
    IS(css_companion_slept(c), CSS_CLOSED);
    IS(css_companion_when(c, 1, &when), CSS_CLOSED);
    IS(css_companion_until(c, 1, &last), CSS_CLOSED);
    IS(css_companion_snapshot(c, &copy), CSS_CLOSED);
    IS(css_companion_agreed(c, 1800, &span), CSS_CLOSED);
    IS(css_companion_next(c, 1, 1, &last, &look), CSS_CLOSED);
    IS(css_companion_fault(c, out, sizeof out, &used), CSS_CLOSED);
    IS(css_companion_cii(c, TEXT(cii)), CSS_CLOSED);
    IS(css_companion_cii_state(c, out, sizeof out, &used), CSS_CLOSED);
    IS(css_companion_cii_field(c, CSS_WC_URL, out, sizeof out, &used), CSS_CLOSED);
    IS(css_companion_timeline(c, 0, &rate, out, sizeof out, &used), CSS_CLOSED);
    IS(css_companion_setup(c, out, sizeof out, &used), CSS_CLOSED);
    IS(css_companion_control(c, TEXT(control)), CSS_CLOSED);
    IS(css_companion_ts_closed(c), CSS_CLOSED);
    IS(css_companion_report(c, 1, 1800, out, sizeof out, &used), CSS_CLOSED);
}

/* 25 codes have words of their own */
static void words(void) {
    uint8_t out[64];
    size_t used;
    int known = 0;
    for (uint32_t code = 0; code < 100; code++) {
        IS(css_companion_words(code, out, sizeof out, &used), CSS_DONE);
        known += used != 7 || memcmp(out, "no code", 7);
    }
    IS(known, 25);
}

int main(void) {
    css_companion c = CSS_NONE;
    wall_clock(&c);
    content(&c);
    timeline(&c);
    miscopied();
    narrow();
    two_answers();
    set_forward();
    together();
    five_errors();
    windows();
    limits(&c);
    closed(&c);
    words();
    return wrong;
}
