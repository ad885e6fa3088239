/* A stand-in for macOS's <assert.h>, as README.md says. */
#pragma once
void __assert_rtn(const char *, const char *, int, const char *) __attribute__((noreturn));
#define assert(is) ((is) ? (void)0 : __assert_rtn(__func__, __FILE__, __LINE__, #is))
#define static_assert _Static_assert
