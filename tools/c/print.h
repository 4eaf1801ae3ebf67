// Printing texts and numbers to the output, each by one call of write.
#ifndef PRINT_H
#define PRINT_H
#include "system.h"

static inline unsigned length_of(const char *text) {
  unsigned length = 0;
  while (text[length]) length++;
  return length;
}

static inline void print(const char *text) { write(1, text, length_of(text)); }

static inline void print_hex(unsigned number) {
  char digits[8];
  for (int at = 0; at < 8; at++) digits[at] = "0123456789abcdef"[number >> (28 - 4 * at) & 15];
  write(1, digits, 8);
}

static inline void print_number(int number) {
  char digits[11];
  int at = 11;
  unsigned left = number < 0 ? -(unsigned)number : (unsigned)number;
  do {
    digits[--at] = (char)('0' + left % 10);
    left /= 10;
  } while (left);
  if (number < 0) digits[--at] = '-';
  write(1, digits + at, 11 - at);
}

static inline void print_wide(unsigned long long number) {
  print_hex((unsigned)(number >> 32));
  print_hex((unsigned)number);
}

static inline void named_number(const char *name, int number) {
  print(name);
  print(" ");
  print_number(number);
  print("\n");
}

static inline void named_hex(const char *name, unsigned number) {
  print(name);
  print(" ");
  print_hex(number);
  print("\n");
}

#endif
