// Loads and stores of each size at each address, through single instructions, where the compiler would make none.
#include "print.h"

#define LOAD(name)                                                       \
  static int name(const void *from) {                                    \
    int result;                                                          \
    __asm__ volatile(#name " %0, 0(%1)" : "=r"(result) : "r"(from) : "memory"); \
    return result;                                                       \
  }
#define STORE(name)                                                      \
  static void name(void *to, int number) {                               \
    __asm__ volatile(#name " %1, 0(%0)" : : "r"(to), "r"(number) : "memory"); \
  }
LOAD(lb) LOAD(lbu) LOAD(lh) LOAD(lhu) LOAD(lw)
STORE(sb) STORE(sh) STORE(sw)

static unsigned char bytes[32] __attribute__((aligned(16)));
static struct __attribute__((packed)) { char first; int number; short half; long long wide; } packed;

static void show(void) {
  for (int at = 0; at < 16; at += 4) print_hex(*(unsigned *)(bytes + at));
  print("\n");
}

int main(void) {
  for (int at = 0; at < 32; at++) bytes[at] = (unsigned char)(at * 83 + 0x6b);
  show();
  for (int at = 0; at < 8; at++) {
    named_hex("lb", (unsigned)lb(bytes + at));
    named_hex("lbu", (unsigned)lbu(bytes + at));
    named_hex("lh", (unsigned)lh(bytes + at));
    named_hex("lhu", (unsigned)lhu(bytes + at));
    named_hex("lw", (unsigned)lw(bytes + at));
  }
  for (int at = 0; at < 5; at++) {
    sb(bytes + at, 0x1234567 * at);
    show();
    sh(bytes + at + 1, 0x7654321 * at);
    show();
    sw(bytes + at + 3, -0x1234567 * at);
    show();
  }
  int on_stack[4] = {0};
  char *from = (char *)on_stack;
  sw(from + 3, 0x01020384);
  sh(from + 9, -2);
  for (int at = 0; at < 4; at++) named_hex("stack", (unsigned)lw(on_stack + at));
  packed.number = -123456;
  packed.half = -7;
  packed.wide = 0x1122334455667788;
  named_hex("packed", (unsigned)lw((char *)&packed + 4));
  named_hex("packed", (unsigned)lw((char *)&packed + 10));
  return lbu(bytes + 7);
}
