#pragma once
#define SIGINT 2
#define SIGTERM 15
typedef int sig_atomic_t;
typedef struct {
    unsigned long bits[16];
} sigset_t;
struct sigaction {
    void (*sa_handler)(int);
    sigset_t sa_mask;
    int sa_flags;
    void (*sa_restorer)(void);
};
int sigemptyset(sigset_t *);
int sigaction(int, const struct sigaction *, struct sigaction *);
