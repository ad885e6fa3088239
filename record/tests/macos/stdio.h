/* A stand-in for macOS's <stdio.h>, as README.md says. */
#pragma once
#include <stddef.h>
typedef struct __sFILE FILE;
extern FILE *__stdinp, *__stdoutp, *__stderrp;
#define stdin __stdinp
#define stdout __stdoutp
#define stderr __stderrp
#define EOF (-1)
#define SEEK_SET 0
#define SEEK_END 2
int fclose(FILE *);
int ferror(FILE *);
int fflush(FILE *);
char *fgets(char *, int, FILE *);
FILE *fopen(const char *, const char *);
int fprintf(FILE *, const char *, ...) __attribute__((format(printf, 2, 3)));
int fputc(int, FILE *);
int fputs(const char *, FILE *);
size_t fread(void *, size_t, size_t, FILE *);
int fseek(FILE *, long, int);
long ftell(FILE *);
int printf(const char *, ...) __attribute__((format(printf, 1, 2)));
int putchar(int);
int puts(const char *);
void rewind(FILE *);
int snprintf(char *, size_t, const char *, ...) __attribute__((format(printf, 3, 4)));
