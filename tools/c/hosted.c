// A program on a C library: picolibc, of which it uses printf, qsort, malloc and the functions of strings and of mathematics.
// The library asks for an output, for memory, and for a place for errno.
#include <errno.h>
#include <math.h>
#include <stdio.h>
#include <stdlib.h>
#include <string.h>
#include "system_call.h"

static int put(char byte, FILE *file) {
  (void)file;
  return system_call(64, 1, (int)&byte, 1) == 1 ? (unsigned char)byte : EOF;
}
static FILE output = FDEV_SETUP_STREAM(put, NULL, NULL, _FDEV_SETUP_WRITE);
FILE *const stdout = &output;

// malloc takes its memory from here.
static char heap[65536];
static char *heap_end = heap;
void *sbrk(ptrdiff_t more) {
  if (more > heap + sizeof heap - heap_end || more < heap - heap_end) {
    errno = ENOMEM;
    return (void *)-1;
  }
  heap_end += more;
  return heap_end - more;
}

// errno is a variable of a thread: tp has to point at the threads' variables, which all begin as 0 here.
static char thread[64] __attribute__((aligned(16)));

static int order(const void *left, const void *right) { return *(const int *)left - *(const int *)right; }

int main(void) {
  __asm__ volatile("mv tp, %0" : : "r"(thread));
  int *numbers = malloc(100 * sizeof *numbers);
  if (!numbers) return 1;
  for (int at = 0; at < 100; at++) numbers[at] = at * 7919 % 1009;
  qsort(numbers, 100, sizeof *numbers, order);
  printf("%d %d %d %s\n", numbers[0], numbers[50], numbers[99], strstr("hay and a needle", "needle"));
  printf("%08x %5.3f %g\n", (unsigned)numbers[99], sqrt(2.0) * numbers[50], exp(1.0));
  free(numbers);
  errno = 0;
  void *large = malloc(1000000);
  printf("%d %d\n", large == NULL, errno == ENOMEM);
  return large == NULL ? 5 : 6;
}
