#pragma once
#include <stddef.h>
typedef long ssize_t;
#define STDIN_FILENO 0
#define STDOUT_FILENO 1
ssize_t read(int, void *, size_t);
ssize_t write(int, const void *, size_t);
int close(int);
void _exit(int) __attribute__((noreturn));
