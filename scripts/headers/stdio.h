#pragma once
#include <stddef.h>
typedef struct file FILE;
extern FILE *stdin, *stdout, *stderr;
FILE *fopen(const char *, const char *);
size_t fread(void *, size_t, size_t, FILE *);
size_t fwrite(const void *, size_t, size_t, FILE *);
char *fgets(char *, int, FILE *);
int ferror(FILE *);
int fflush(FILE *);
int fputs(const char *, FILE *);
int putchar(int);
int printf(const char *, ...) __attribute__((format(printf, 1, 2)));
int fprintf(FILE *, const char *, ...) __attribute__((format(printf, 2, 3)));
int snprintf(char *, size_t, const char *, ...) __attribute__((format(printf, 3, 4)));
