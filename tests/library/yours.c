/* What docs/LIBRARY.md's loop leaves to the application, over the sockets of examples/follow:
 *     loop ws://HOST:PORT/cii TICK
 * The last line tells how many requests it sent and how long it ran. */
#define _GNU_SOURCE
#include "yours.h"
#include "css_companion.h"
#include "session.h"
#include <poll.h>
#include <stdio.h>
#include <stdlib.h>
#include <string.h>
#include <sys/socket.h>
#include <time.h>
#include <unistd.h>

int run(const char *cii_url, int64_t question);

/* sessions by the numbers 1000 and 1001, and sockets by their own */
static session sessions[2] = {{.fd = -1}, {.fd = -1}};
static int udp = -1;
static long requests;

static const char *url_of(const uint8_t *url, size_t len) {
    static char out[512];
    snprintf(out, sizeof out, "%.*s", (int)len, (const char *)url);
    return out;
}

int udp_open(const uint8_t *url, size_t len) {
    char path[512];
    return udp = dial(url_of(url, len), SOCK_DGRAM, path, sizeof path);
}

int udp_take(int socket, uint8_t *out, size_t room) { return recv(socket, out, room, MSG_DONTWAIT); }

void udp_send(int socket, const uint8_t *datagram, size_t len) {
    requests++;
    if (send(socket, datagram, len, MSG_NOSIGNAL) < 0) perror("a request was lost");
}

int ws_open(const uint8_t *url, size_t len) {
    int place = sessions[0].fd < 0 ? 0 : 1;
    return session_open(&sessions[place], url_of(url, len)) ? -1 : 1000 + place;
}

int ws_take(int ws, uint8_t *out, size_t room) {
    const uint8_t *text;
    size_t len;
    int is = session_next(&sessions[ws - 1000], &text, &len);
    if (is <= 0 || len > room) return is;
    memcpy(out, text, len);
    return len;
}

void ws_send(int ws, const uint8_t *text, size_t len) { session_send(&sessions[ws - 1000], text, len); }

void close_it(int it) {
    if (it >= 1000) session_close(&sessions[it - 1000]);
    if (it >= 0 && it < 1000) close(it), udp = -1;
}

void wait_for_any(uint64_t reading) {
    struct pollfd all[3] = {{udp, POLLIN, 0}, {sessions[0].fd, POLLIN, 0}, {sessions[1].fd, POLLIN, 0}};
    uint64_t now = css_reading(), left = reading > now ? reading - now : 0;
    struct timespec most = {left / 1000000000, left % 1000000000};
    ppoll(all, 3, &most, NULL);
}

void follow(const void *position) { (void)position; }

void show_question(void) { printf("shown at %llu\n", (unsigned long long)css_reading()); }

int main(int argc, char **argv) {
    if (argc != 3) return 2;
    uint64_t begun = css_reading();
    int status = run(argv[1], atoll(argv[2]));
    printf("requests %ld ms %llu used %ld\n", requests, (unsigned long long)(css_reading() - begun) / 1000000,
           clock() / (CLOCKS_PER_SEC / 1000));
    return status;
}
