/* A stand-in for macOS's <stdlib.h>, as README.md says. */
#pragma once
#include <stddef.h>
void abort(void) __attribute__((noreturn));
int atoi(const char *);
void *calloc(size_t, size_t);
void exit(int) __attribute__((noreturn));
void free(void *);
char *getenv(const char *);
void *malloc(size_t);
unsigned long strtoul(const char *, char **, int);
unsigned long long strtoull(const char *, char **, int);
