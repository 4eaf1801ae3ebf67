// The machine's calls: a number, three arguments and an answer. Answers below 0 are refusals: -9 for a descriptor that isn't
// there, -14 for a buffer that isn't mapped, -38 for a call that isn't there.
#ifndef SYSTEM_CALL_H
#define SYSTEM_CALL_H

static inline int system_call(int number, int first, int second, int third) {
  register int a0 __asm__("a0") = first;
  register int a1 __asm__("a1") = second;
  register int a2 __asm__("a2") = third;
  register int a7 __asm__("a7") = number;
  __asm__ volatile("ecall" : "+r"(a0) : "r"(a1), "r"(a2), "r"(a7) : "memory");
  return a0;
}

#endif
