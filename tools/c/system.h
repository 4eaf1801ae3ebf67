// The three calls that the machine has.
#ifndef SYSTEM_H
#define SYSTEM_H
#include "system_call.h"

static inline int read(int descriptor, void *buffer, unsigned count) {
  return system_call(63, descriptor, (int)buffer, (int)count);
}

static inline int write(int descriptor, const void *buffer, unsigned count) {
  return system_call(64, descriptor, (int)buffer, (int)count);
}

static inline void exit(int code) {
  for (;;) system_call(93, code, 0, 0);
}

#endif
