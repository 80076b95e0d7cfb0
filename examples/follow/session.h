/* Sockets by URL, and a small client of WebSockets. It takes no part in what is proved. */
#ifndef SESSION_H
#define SESSION_H

#include <stddef.h>
#include <stdint.h>

/* a session, and what came on it: up to one message of the greatest length */
typedef struct session {
    int fd; /* below 0: none is open */
    size_t have, drop;
    uint8_t in[262144 + 16];
} session;

/* A connected socket to the host and port of a URL, or -1. The URL's path is put into `path`. */
int dial(const char *url, int kind, char *path, size_t room);
/* 0 where the session is open. */
int session_open(session *s, const char *url);
void session_send(session *s, const uint8_t *text, size_t len);
/* The next text: 1, and it stays until the next call; 0 where none is there; -1 where the session is over. */
int session_next(session *s, const uint8_t **text, size_t *len);
void session_close(session *s);

#endif
