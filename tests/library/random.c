/* Random calls with random bytes: none may read or write outside, and what is told is in order.  random SEED CALLS
 * The number that it prints at the end goes by all codes and positions, so it is the same on each machine. */
#include "css_companion.h"
#include <stdio.h>
#include <stdlib.h>
#include <string.h>

static uint64_t state;

static uint32_t draw(void) {
    state ^= state << 13;
    state ^= state >> 7;
    state ^= state << 17;
    return state >> 16;
}

/* One draw a statement: else each compiler may order them otherwise. */
static uint64_t draw_long(void) {
    uint64_t high = draw();
    return high << 32 | draw();
}

static const char *parts[] = {
    "{",
    "}",
    "\"wcUrl\":",
    "\"tsUrl\":\"ws://a:1\"",
    "null",
    ",",
    "\"udp://1.2.3.4:5\"",
    "\"timelines\":[",
    "]",
    "{\"timelineSelector\":\"urn:dvb:css:timeline:pts\",\"timelineProperties\":{\"unitsPerTick\":1,"
    "\"unitsPerSecond\":90000}}",
    "\"contentTime\":\"900000\"",
    "\"timelineSpeedMultiplier\":",
    "-64",
    "1",
    "0.5",
    "\"wallClockTime\":\"",
    "12345\"",
    "9223372036854775807\"",
    "[[[[",
    "\"\\ud800\"",
    "\xff",
    "1e400"};

/* a text of parts, or a control timestamp, in a block of exactly its length */
static uint8_t *drawn_text(size_t *len) {
    char text[4096];
    *len = 0;
    for (int k = draw() % 12; k > 0; k--) {
        const char *part = parts[draw() % (sizeof parts / sizeof *parts)];
        memcpy(text + *len, part, strlen(part));
        *len += strlen(part);
    }
    if (draw() % 4 == 0) {
        int content = draw(), speed = (int)(draw() % 5) - 2;
        *len = snprintf(text, sizeof text,
                        "{\"contentTime\":\"%d\",\"timelineSpeedMultiplier\":%d,\"wallClockTime\":\"%u\"}", content,
                        speed, draw());
    }
    uint8_t *exact = malloc(*len);
    memcpy(exact, text, *len);
    return exact;
}

static uint32_t land(css_companion *c, const uint8_t *request, uint64_t reading) {
    uint8_t in[32];
    memcpy(in, request, 32);
    in[1] = 1 + draw() % 3;
    in[2] = 0xe0 + draw() % 8;
    for (int k = 16; k < 32; k++) in[k] = k < 20 || k % 4 < 2 ? 0 : draw();
    in[19] = in[27] = draw() % 3;
    uint32_t place = draw() % 32;
    if (draw() % 3 == 0) in[place] = draw();
    return css_companion_land(c, in, draw() % 9 ? 32 : draw() % 32, reading);
}

static uint32_t put(css_companion *c, uint64_t reading, int *bad) {
    size_t room = draw() % 200, used = 0;
    uint8_t *out = malloc(room);
    int64_t content = draw_long();
    content >>= draw() % 64;
    css_bound a = {content, draw(), false}, b;
    a.infinite = draw() & 1;
    b = a;
    uint32_t code;
    css_rate rate;
    switch (draw() % 7) {
    case 6: code = css_companion_fault(c, out, room, &used); break;
    case 0: code = css_companion_cii_field(c, draw() % 9, out, room, &used); break;
    case 1: code = css_companion_cii_state(c, out, room, &used); break;
    case 2: code = css_companion_setup(c, out, room, &used); break;
    case 3: code = css_companion_presentation(&a, &b, out, room, &used); break;
    case 4: code = css_companion_timeline(c, draw() % 3, &rate, out, room, &used); break;
    default: code = css_companion_report(c, draw(), reading, out, room, &used);
    }
    *bad |= (code == CSS_DONE && used > room) || (code == CSS_NO_ROOM && used <= room);
    free(out);
    return code;
}

/* The tick is shown at both ends, and not behind them. Where several responses are kept, the one that a position goes by
 * may still have it there. */
static uint32_t when(css_companion *c, int *bad) {
    int64_t tick = (int32_t)draw();
    css_readings readings;
    css_position p;
    css_snapshot kept;
    uint32_t code = css_companion_when(c, tick, &readings);
    if (code) return code;
    *bad |= readings.from > readings.to;
    if (!css_companion_position(c, readings.from, &p)) *bad |= p.lo > tick || tick > p.hi;
    if (!css_companion_position(c, readings.to, &p)) *bad |= p.lo > tick || tick > p.hi;
    if (css_companion_snapshot(c, &kept) || kept.count > 1) return code;
    if (!css_companion_position(c, readings.to + 1, &p)) *bad |= p.lo <= tick && tick <= p.hi;
    return code;
}

/* the lead of both ends of the ticks goes with them, to a tick */
static uint32_t lead(css_companion *c, uint64_t reading, int *bad) {
    css_position p;
    css_span span;
    uint32_t code = css_companion_position(c, reading, &p);
    if (code) return css_companion_lead(c, reading, draw(), &span);
    *bad |= p.lo > p.hi || !p.units_per_tick;
    code = css_companion_lead(c, reading, p.hi + 1, &span);
    if (!code) *bad |= span.lo > span.hi || span.lo < -1;
    code = css_companion_lead(c, reading, p.lo, &span);
    if (!code) *bad |= span.hi > 1;
    return code;
}

/* it is narrow enough at the last reading, and not by a nanosecond more at the next */
static uint32_t until(css_companion *c, int *bad) {
    uint64_t width = draw_long(), last;
    width >>= draw() % 64;
    css_span wall;
    uint32_t code = css_companion_until(c, width, &last);
    if (code) return code;
    if (!css_companion_wall(c, last, &wall)) *bad |= (uint64_t)wall.hi - (uint64_t)wall.lo > width;
    if (!css_companion_wall(c, last + 1, &wall)) *bad |= (uint64_t)wall.hi - (uint64_t)wall.lo + 1 <= width;
    return code;
}

/* what all say together lies in what the narrowest says */
static uint32_t agreed(css_companion *c, uint64_t reading, int *bad) {
    css_span wall, both;
    uint32_t code = css_companion_agreed(c, reading, &both);
    if (code) return code;
    *bad |= both.lo > both.hi || css_companion_wall(c, reading, &wall);
    *bad |= both.lo < wall.lo || wall.hi < both.hi;
    return code;
}

/* it looks where `when` says */
static uint32_t next(css_companion *c, int *bad) {
    uint64_t width = draw_long() >> (draw() % 64), ask, look;
    int64_t tick = (int32_t)draw();
    css_readings readings;
    uint32_t code = css_companion_next(c, width, tick, &ask, &look);
    if (code) return code;
    if (!css_companion_when(c, tick, &readings)) *bad |= look != readings.from;
    else *bad |= look != 4294967295999999999u;
    return code;
}

/* a copy tells the same, and one whose numbers are drawn stays within its memory */
static uint32_t copied(css_companion *c, uint64_t reading, int *bad) {
    css_snapshot copy, drawn;
    css_position p, q;
    for (size_t k = 0; k < sizeof drawn; k++) {
        uint32_t bits = draw();
        ((uint8_t *)&drawn)[k] = bits >> (draw() % 32);
    }
    *bad |= css_snapshot_position(&drawn, draw_long(), &p) >= 64;
    uint32_t code = css_companion_snapshot(c, &copy);
    if (code) return code;
    code = css_companion_position(c, reading, &p);
    *bad |= code != css_snapshot_position(&copy, reading, &q);
    if (!code) *bad |= p.lo != q.lo || p.hi != q.hi;
    copy.count = draw() % 6;
    uint32_t place = draw() % sizeof copy;
    ((uint8_t *)&copy)[place] = draw();
    *bad |= css_snapshot_position(&copy, reading, &q) >= 64;
    return code;
}

static uint32_t call(css_companion *c, uint64_t reading, uint8_t *request, int *bad) {
    size_t len;
    uint8_t *text = drawn_text(&len);
    css_span wall;
    uint32_t code = 0, error;
    switch (draw() % 22) {
    case 20: code = agreed(c, reading, bad); break;
    case 21: code = next(c, bad); break;
    case 0:
        if (draw() % 50 == 0) css_companion_free(c);
        break;
    case 1:
        if (draw() % 8) break;
        error = draw() % 2700000;
        code = css_companion_new(c, (const uint8_t *)"urn:dvb:css:timeline:pts", 24, text, len, error,
                                 draw() % 1100000000);
        break;
    case 2:
        if (draw() % 30 == 0) code = css_companion_slept(c);
        break;
    case 3:
    case 4: code = css_companion_ask(c, reading, request); break;
    case 5:
    case 6:
    case 7: code = land(c, request, reading); break;
    case 8:
        code = css_companion_wall(c, reading, &wall);
        *bad |= !code && wall.lo > wall.hi;
        break;
    case 9:
    case 10: code = lead(c, reading, bad); break;
    case 11: code = css_companion_cii(c, text, len); break;
    case 12:
    case 13: code = css_companion_control(c, text, len); break;
    case 14: code = put(c, reading, bad); break;
    case 15: code = until(c, bad); break;
    case 16:
    case 17: code = copied(c, reading, bad); break;
    default: code = when(c, bad);
    }
    free(text);
    return code;
}

int main(int argc, char **argv) {
    if (argc != 3) return 2;
    state = strtoull(argv[1], NULL, 10) * 2654435761u + 1;
    css_companion c = CSS_NONE;
    uint8_t request[32] = {0};
    uint64_t now = 0, told = 0;
    css_position p = {0, 0, 0, 0, 0, 0, 0};
    for (long i = 0, calls = atol(argv[2]); i < calls; i++) {
        int bad = 0;
        now += draw() % 1000000;
        uint32_t code = call(&c, draw() % 20 ? now : draw_long(), request, &bad);
        if (code == CSS_DISAGREE && draw() % 2) css_companion_slept(&c); /* else nothing is told for long */
        if (bad || code >= 64) return printf("call %ld: %u\n", i, code), 1;
        css_companion_position(&c, now, &p);
        uint64_t seen[] = {code, (uint64_t)p.lo, (uint64_t)p.hi, request[15]};
        for (int k = 0; k < 4; k++) told = (told ^ seen[k]) * 1099511628211u;
    }
    css_companion_free(&c);
    printf("%llu\n", (unsigned long long)told);
    return 0;
}
