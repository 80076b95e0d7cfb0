/* Follows a television over its own sockets:  follow ws://HOST:PORT/cii [REPORTS [REOPEN]]
 * Each second it prints the ticks that the television may be presenting, and when half a second more will have gone. It
 * takes the television's wall clock for this machine's own, as on loopback, and tells whether what was said is true.
 * Where the TS session closes it opens another. After REOPEN reports it closes the session itself. */
#define _GNU_SOURCE
#include "css_companion.h"
#include "session.h"
#include <inttypes.h>
#include <poll.h>
#include <stdio.h>
#include <stdlib.h>
#include <string.h>
#include <sys/socket.h>
#include <unistd.h>

typedef struct follower {
    css_companion companion;
    css_sleep sleep;
    session cii, ts;
    int udp;
    uint64_t next;      /* the reading of the next report */
    uint64_t next_dial; /* no dial before it */
    int reports, reopen, told, held, foretold, led;
} follower;

static const char *word(uint32_t code) {
    static char out[64];
    size_t used = 0;
    css_companion_words(code, (uint8_t *)out, sizeof out - 1, &used);
    out[used] = 0;
    return out;
}

static int property(follower *f, uint32_t number, char *out, size_t room) {
    size_t used = 0;
    if (css_companion_cii_field(&f->companion, number, (uint8_t *)out, room - 1, &used)) return 0;
    out[used] = 0;
    return 1;
}

static int begin(follower *f, const char *url) {
    const char *selector = "urn:dvb:css:timeline:pts";
    css_sleep awake = CSS_AWAKE;
    f->sleep = awake;
    f->udp = f->ts.fd = -1;
    f->next = f->next_dial = css_reading();
    if (css_companion_new(&f->companion, (const uint8_t *)selector, strlen(selector), NULL, 0, 128000, 1000)) return 1;
    return session_open(&f->cii, url);
}

/* ---- a turn */
/* Datagrams come first, each with the reading at its landing. 0 where their answers agree. */
static int hear_clock(follower *f) {
    uint8_t in[64];
    for (ssize_t got; f->udp >= 0 && (got = recv(f->udp, in, sizeof in, MSG_DONTWAIT)) >= 0;) {
        uint32_t code = css_companion_land(&f->companion, in, got, css_reading());
        if (code) fprintf(stderr, "datagram: %s\n", word(code));
        if (code == CSS_DISAGREE) return 1;
    }
    return 0;
}

/* 0 where the session goes on. */
static int hear_content(follower *f) {
    const uint8_t *text;
    size_t len;
    int is;
    while ((is = session_next(&f->cii, &text, &len)) > 0) {
        uint32_t code = css_companion_cii(&f->companion, text, len);
        if (code) return fprintf(stderr, "CII: %s\n", word(code)), 1;
    }
    return is;
}

/* The wall clock's answers stay, so the next control timestamp gives an interval at once. */
static void end_timeline(follower *f) {
    css_companion_ts_closed(&f->companion);
    session_close(&f->ts);
}

static void hear_timeline(follower *f) {
    const uint8_t *text;
    size_t len;
    int is = 0;
    while (f->ts.fd >= 0 && (is = session_next(&f->ts, &text, &len)) > 0) {
        css_companion_control(&f->companion, text, len);
    }
    if (is < 0) end_timeline(f);
}

/* The setup begins the session anew, in the companion too. */
static void open_timeline(follower *f, const char *url) {
    uint8_t setup[512];
    size_t used;
    if (session_open(&f->ts, url)) return;
    if (!css_companion_setup(&f->companion, setup, sizeof setup, &used)) session_send(&f->ts, setup, used);
}

static void dial_what_is_told(follower *f) {
    char url[512], path[512];
    uint64_t now = css_reading();
    if (now < f->next_dial) return;
    if (f->udp < 0 && property(f, CSS_WC_URL, url, sizeof url)) f->udp = dial(url, SOCK_DGRAM, path, sizeof path);
    if (f->ts.fd < 0 && property(f, CSS_TS_URL, url, sizeof url)) {
        open_timeline(f, url);
        f->next_dial = now + 500000000;
    }
}

static void ask(follower *f) {
    uint8_t request[32];
    if (f->udp >= 0 && !css_companion_ask(&f->companion, css_reading(), request) &&
        send(f->udp, request, sizeof request, 0) != sizeof request) {
        fprintf(stderr, "a request was lost\n");
    }
}

/* ---- a report */
/* What the control timestamp assigns to a reading, where the television goes by this machine's clock. */
static int64_t tick_at(const css_position *p, uint64_t reading) {
    __int128 units = ((__int128)reading - p->wall) * p->units_per_second * p->speed;
    __int128 tick = (__int128)p->units_per_tick * 1000000000;
    return p->content + (int64_t)(units >= 0 ? units / tick : -((-units + tick - 1) / tick));
}

/* The first reading at which the timeline is at a tick, where it goes forward. */
static __int128 reading_of(const css_position *p, int64_t tick) {
    __int128 units = (__int128)p->units_per_second * p->speed;
    return p->wall + ((__int128)(tick - p->content) * p->units_per_tick * 1000000000 + units - 1) / units;
}

static int is_foretold(follower *f, const css_position *p, uint64_t now) {
    css_readings when = {0, 0};
    int64_t tick = p->hi + p->units_per_second / p->units_per_tick / 2;
    uint32_t code = css_companion_when(&f->companion, tick, &when);
    if (code) return p->speed <= 0;
    printf(", and %" PRId64 " in %.6f s to %.6f s", tick, ((double)when.from - now) / 1e9,
           ((double)when.to - now) / 1e9);
    return when.from <= reading_of(p, tick) && reading_of(p, tick + 1) - 1 <= when.to;
}

/* The lead of a player that is a tenth of a second ahead contains that, to a tick's length. */
static int is_led(follower *f, const css_position *p, uint64_t now) {
    css_span lead;
    int64_t rate = p->units_per_second / p->units_per_tick, tick = tick_at(p, now) + 1 + rate / 10;
    if (css_companion_lead(&f->companion, now, tick, &lead)) return 0;
    return lead.lo <= 100000000 + 1000000000 / rate + 1 && 100000000 <= lead.hi;
}

static void report(follower *f, uint64_t now) {
    css_position p;
    uint32_t code = css_companion_position(&f->companion, now, &p);
    if (code) {
        printf("none: %s\n", word(code));
    } else {
        int64_t truth = tick_at(&p, now);
        f->told++;
        f->held += p.lo <= truth && truth <= p.hi;
        printf("ticks %" PRId64 " %" PRId64 " at %" PRId64, p.lo, p.hi, truth);
        f->foretold += is_foretold(f, &p, now);
        f->led += is_led(f, &p, now);
        printf("\n");
    }
    fflush(stdout);
}

static void wait_for_any(const follower *f) {
    struct pollfd sockets[3] = {{f->udp, POLLIN, 0}, {f->cii.fd, POLLIN, 0}, {f->ts.fd, POLLIN, 0}};
    uint64_t now = css_reading();
    poll(sockets, 3, now < f->next ? (int)((f->next - now) / 1000000) + 1 : 0);
}

/* 0 where the loop goes on. */
static int turn(follower *f) {
    wait_for_any(f);
    if (css_has_slept(&f->sleep)) css_companion_slept(&f->companion);
    if (hear_clock(f) || hear_content(f)) return 1;
    hear_timeline(f);
    dial_what_is_told(f);
    uint64_t now = css_reading();
    if (now >= f->next) {
        f->next += 1000000000;
        report(f, now);
        ask(f);
        if (f->reopen && f->told == f->reopen) {
            f->reopen = 0;
            end_timeline(f);
        }
    }
    return f->told >= f->reports;
}

int main(int argc, char **argv) {
    static follower f;
    if (argc < 2) return 2;
    f.reports = argc > 2 ? atoi(argv[2]) : 10;
    f.reopen = argc > 3 ? atoi(argv[3]) : 0;
    if (begin(&f, argv[1])) return fprintf(stderr, "no television at %s\n", argv[1]), 1;
    while (!turn(&f)) {
    }
    css_companion_free(&f.companion);
    session_close(&f.cii);
    session_close(&f.ts);
    if (f.udp >= 0) close(f.udp);
    fprintf(stderr, "%d of %d intervals are true, %d of what was foretold, and %d leads\n", f.held, f.told, f.foretold,
            f.led);
    return !f.told || f.held != f.told || f.foretold != f.told || f.led != f.told;
}
