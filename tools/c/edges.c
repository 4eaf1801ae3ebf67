// Each operation of registers at the edges of the numbers, as a single instruction: all of M, shifts and comparisons.
#include "print.h"

#define OPERATION(name)                                                          \
  static unsigned name##_of(unsigned left, unsigned right) {                     \
    unsigned result;                                                             \
    __asm__ volatile(#name " %0, %1, %2" : "=r"(result) : "r"(left), "r"(right)); \
    return result;                                                               \
  }
OPERATION(mul) OPERATION(mulh) OPERATION(mulhsu) OPERATION(mulhu)
OPERATION(div) OPERATION(divu) OPERATION(rem) OPERATION(remu)
OPERATION(sll) OPERATION(srl) OPERATION(sra) OPERATION(slt) OPERATION(sltu)

static const struct { const char *name; unsigned (*of)(unsigned, unsigned); } operations[] = {
  {"mul", mul_of}, {"mulh", mulh_of}, {"mulhsu", mulhsu_of}, {"mulhu", mulhu_of},
  {"div", div_of}, {"divu", divu_of}, {"rem", rem_of}, {"remu", remu_of},
  {"sll", sll_of}, {"srl", srl_of}, {"sra", sra_of}, {"slt", slt_of}, {"sltu", sltu_of},
};
static const unsigned numbers[] = {0, 1, 2, 7, 31, 32, 0xffff, 0x10000, 0x7ffffffe, 0x7fffffff,
                                   0x80000000, 0x80000001, 0xaaaaaaaa, 0xfffffff9, 0xfffffffe, 0xffffffff};
enum { COUNT = sizeof numbers / sizeof numbers[0] };

// Writing x0 has no effect, whatever the operation.
static unsigned zero(void) {
  unsigned result;
  __asm__ volatile("mul x0, %1, %1\n\taddi x0, %1, 5\n\tlw x0, 0(%2)\n\tmv %0, x0" : "=r"(result) : "r"(77), "r"(numbers + 3));
  return result;
}

int main(void) {
  unsigned sum = 0;
  for (unsigned which = 0; which < sizeof operations / sizeof operations[0]; which++) {
    print(operations[which].name);
    for (int left = 0; left < COUNT; left++) {
      unsigned row = 0;
      for (int right = 0; right < COUNT; right++) {
        unsigned result = operations[which].of(numbers[left], numbers[right]);
        row = row * 31 + result;
        if ((numbers[left] == 0x80000000 || numbers[left] == 7) && (right == 0 || right == COUNT - 1 || right == COUNT - 3)) {
          print(" ");
          print_hex(result);
        }
      }
      sum = sum * 17 + row;
    }
    print(" all ");
    print_hex(sum);
    print("\n");
  }
  named_hex("zero", zero());
  return (int)(sum & 127);
}
