/* Makes one call of the library so often, for bench/library.py:  library CALL COUNT
 * It prints how often memory was taken in these calls. */
#include "css_companion.h"
#include <stdio.h>
#include <stdlib.h>
#include <string.h>

#define TEXT(text) (const uint8_t *)(text), strlen(text)

static const char *cii =
    "{\"protocolVersion\":\"1.1\",\"contentId\":\"dvb://233a.1004.1044\",\"contentIdStatus\":\"final\","
    "\"presentationStatus\":\"okay\",\"wcUrl\":\"udp://192.168.1.5:6677\",\"tsUrl\":\"ws://192.168.1.5:6678/ts\","
    "\"timelines\":[{\"timelineSelector\":\"urn:dvb:css:timeline:pts\","
    "\"timelineProperties\":{\"unitsPerTick\":1,\"unitsPerSecond\":90000}}]}";
static const char *control =
    "{\"contentTime\":\"900000\",\"timelineSpeedMultiplier\":1,\"wallClockTime\":\"1000000000\"}";
static const char *spaced =
    "{\"contentTime\": \"900000\", \"timelineSpeedMultiplier\": 1.0, \"wallClockTime\": \"1000000000\"}";
static uint64_t reading = 1000000000;
static unsigned long taken;

void *__real_malloc(size_t size);
void *__real_realloc(void *at, size_t size);

void *__wrap_malloc(size_t size) {
    taken++;
    return __real_malloc(size);
}

void *__wrap_realloc(void *at, size_t size) {
    taken++;
    return __real_realloc(at, size);
}

static void put(uint8_t *at, uint64_t ns) {
    uint32_t parts[2] = {ns / 1000000000, ns % 1000000000};
    for (int k = 0; k < 8; k++) at[k] = parts[k / 4] >> (24 - k % 4 * 8);
}

/* The answer of a television whose wall clock is the companion's own clock. */
static void answer(uint8_t *datagram) {
    uint32_t error = 128000;
    datagram[1] = 1;
    datagram[2] = 0xec;
    for (int k = 0; k < 4; k++) datagram[4 + k] = error >> (24 - k * 8);
    put(datagram + 16, reading + 400000);
    put(datagram + 24, reading + 500000);
}

static uint8_t out[512], oldest[32];
static size_t used;
static css_span span;
static css_position position;
static css_readings readings;
static css_rate rate;
static css_snapshot copy;
static uint64_t last, look;

static uint32_t nothing(css_companion *c) { return c == NULL; }
static uint32_t answered(css_companion *c) {
    reading += 1000000;
    answer(out);
    return c == NULL;
}
static uint32_t ask(css_companion *c) {
    uint32_t code = css_companion_ask(c, reading += 1000000, out);
    answer(out);
    return code;
}
static uint32_t exchange(css_companion *c) {
    uint32_t code = ask(c);
    return code | css_companion_land(c, out, 32, reading += 1000000);
}
/* The answer to the oldest request that is remembered comes once more. */
static uint32_t late(css_companion *c) { return css_companion_land(c, oldest, 32, reading += 1000000); }
static uint32_t wall(css_companion *c) { return css_companion_wall(c, reading + 1000000, &span); }
static uint32_t ticks(css_companion *c) { return css_companion_position(c, reading + 1000000, &position); }
static uint32_t lead(css_companion *c) { return css_companion_lead(c, reading + 1000000, 950000, &span); }
static uint32_t when(css_companion *c) { return css_companion_when(c, 2000000, &readings); }
static uint32_t agreed(css_companion *c) { return css_companion_agreed(c, reading + 1000000, &span); }
static uint32_t next(css_companion *c) { return css_companion_next(c, 10000000, 2000000, &last, &look); }
static uint32_t until(css_companion *c) { return css_companion_until(c, 10000000, &last); }
/* A response to the last request came. */
static uint32_t exchanged(css_companion *c) {
    static int is_done;
    return is_done++ ? 0 : exchange(c);
}
static uint32_t due(css_companion *c) { return exchanged(c) | next(c); }
static uint32_t snapshot(css_companion *c) { return css_companion_snapshot(c, &copy); }
static uint32_t copied(css_companion *c) { return c ? css_snapshot_position(&copy, reading + 1000000, &position) : 1; }
static uint32_t slept(css_companion *c) { return css_companion_slept(c); }
static uint32_t timeline(css_companion *c) { return css_companion_timeline(c, 0, &rate, out, sizeof out, &used); }
static uint32_t setup(css_companion *c) { return css_companion_setup(c, out, sizeof out, &used); }
static uint32_t ts_closed(css_companion *c) { return css_companion_ts_closed(c); }
static uint32_t hear_ts(css_companion *c) { return css_companion_control(c, TEXT(control)); }
static uint32_t hear_spaced(css_companion *c) { return css_companion_control(c, TEXT(spaced)); }
static uint32_t hear_cii(css_companion *c) { return css_companion_cii(c, TEXT(cii)); }

static const struct {
    const char *name;
    uint32_t (*make)(css_companion *c);
} calls[] = {
    {"nothing", nothing},   {"answered", answered}, {"ask", ask},           {"exchange", exchange},
    {"late", late},         {"wall", wall},         {"position", ticks},    {"lead", lead},
    {"when", when},         {"until", until},       {"snapshot", snapshot}, {"copied", copied},
    {"slept", slept},       {"setup", setup},       {"timeline", timeline}, {"ts_closed", ts_closed},
    {"control", hear_ts},   {"spaced", hear_spaced}, {"cii", hear_cii},   {"agreed", agreed},
    {"next", next},         {"exchanged", exchanged}, {"due", due},
};

int main(int argc, char **argv) {
    static css_companion c;
    if (argc < 3 || css_companion_new(&c, TEXT("urn:dvb:css:timeline:pts"), NULL, 0, 128000, 1000)) return 2;
    uint32_t wrong = hear_cii(&c) | exchange(&c) | hear_ts(&c) | snapshot(&c) | ask(&c);
    memcpy(oldest, out, sizeof oldest);
    for (int k = 1; k < 64; k++) wrong |= ask(&c);
    taken = 0;
    for (size_t is = 0; is < sizeof calls / sizeof *calls; is++) {
        if (strcmp(calls[is].name, argv[1])) continue;
        for (int k = atoi(argv[2]); k > 0; k--) wrong |= calls[is].make(&c);
    }
    printf("%lu\n", taken);
    css_companion_free(&c);
    return wrong != 0;
}
