/* A stand-in for macOS's <signal.h>, as README.md says. */
#pragma once
#define SIGTRAP 5
int raise(int);
