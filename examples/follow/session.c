#define _GNU_SOURCE
#include "session.h"
#include <netdb.h>
#include <stdio.h>
#include <string.h>
#include <sys/socket.h>
#include <unistd.h>

enum { TEXT = 1, CLOSE = 8, PING = 9, PONG = 10 };

int dial(const char *url, int kind, char *path, size_t room) {
    char host[256], port[16];
    const char *at = strstr(url, "://");
    if (!at || sscanf(at + 3, "%255[^:/]:%15[0-9]", host, port) != 2) return -1;
    const char *slash = strchr(at + 3, '/');
    snprintf(path, room, "%s", slash ? slash : "/");
    struct addrinfo hints = {.ai_socktype = kind, .ai_family = AF_INET}, *found;
    if (getaddrinfo(host, port, &hints, &found)) return -1;
    int fd = socket(found->ai_family, kind, 0);
    if (fd >= 0 && connect(fd, found->ai_addr, found->ai_addrlen)) {
        close(fd);
        fd = -1;
    }
    freeaddrinfo(found);
    return fd;
}

/* Reads the head of the answer byte by byte, so that no frame is read with it. */
static int is_switched(int fd) {
    char head[1024];
    for (size_t have = 0; have < sizeof head - 1;) {
        if (read(fd, head + have, 1) != 1) return 0;
        head[++have] = 0;
        if (have >= 4 && !memcmp(head + have - 4, "\r\n\r\n", 4)) return !strncmp(head, "HTTP/1.1 101", 12);
    }
    return 0;
}

int session_open(session *s, const char *url) {
    char path[512], head[1024];
    s->have = s->drop = 0;
    s->fd = dial(url, SOCK_STREAM, path, sizeof path);
    if (s->fd < 0) return -1;
    int n = snprintf(head, sizeof head,
                     "GET %s HTTP/1.1\r\nHost: tv\r\nUpgrade: websocket\r\nConnection: Upgrade\r\n"
                     "Sec-WebSocket-Key: dGhlIHNhbXBsZSBub25jZQ==\r\nSec-WebSocket-Version: 13\r\n\r\n",
                     path);
    if (write(s->fd, head, n) == n && is_switched(s->fd)) return 0;
    session_close(s);
    return -1;
}

static void send_frame(session *s, int opcode, const uint8_t *text, size_t len) {
    uint8_t frame[1024 + 8];
    size_t n = 0;
    if (len > 1024) return;
    frame[n++] = 0x80 | opcode;
    frame[n++] = 0x80 | (len < 126 ? len : 126);
    if (len >= 126) {
        frame[n++] = len >> 8;
        frame[n++] = len & 255;
    }
    memset(frame + n, 0, 4); /* a mask of zeros */
    n += 4;
    memcpy(frame + n, text, len);
    n += len;
    if (write(s->fd, frame, n) != (ssize_t)n) session_close(s);
}

void session_send(session *s, const uint8_t *text, size_t len) { send_frame(s, TEXT, text, len); }

/* How many bytes the next frame has before its text, or 0 where they aren't there yet. */
static size_t head_length(const session *s, size_t *len) {
    if (s->have < 2) return 0;
    *len = s->in[1] & 127;
    if (*len < 126) return 2;
    if (*len == 127) return sizeof s->in; /* over 65,535 bytes: not for this client */
    if (s->have < 4) return 0;
    *len = (size_t)s->in[2] << 8 | s->in[3];
    return 4;
}

static void forget_last(session *s) {
    memmove(s->in, s->in + s->drop, s->have - s->drop);
    s->have -= s->drop;
    s->drop = 0;
}

int session_next(session *s, const uint8_t **text, size_t *len) {
    for (;;) {
        forget_last(s);
        size_t head = head_length(s, len);
        if (head && head + *len > sizeof s->in) return -1;
        if (head && s->have >= head + *len) {
            s->drop = head + *len;
            *text = s->in + head;
            int opcode = s->in[0] & 15;
            if (opcode == TEXT) return 1;
            if (opcode == CLOSE) return -1;
            if (opcode == PING) send_frame(s, PONG, *text, *len);
            continue;
        }
        ssize_t got = recv(s->fd, s->in + s->have, sizeof s->in - s->have, MSG_DONTWAIT);
        if (got == 0) return -1;
        if (got < 0) return 0;
        s->have += got;
    }
}

void session_close(session *s) {
    if (s->fd >= 0) close(s->fd);
    s->fd = -1;
}
