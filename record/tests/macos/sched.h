/* A stand-in for macOS's <sched.h>, as README.md says. */
#pragma once
int sched_yield(void);
