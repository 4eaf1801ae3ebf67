// A small machine of its own: a switch over its codes, a table of functions, and structures that hold pointers to both.
#include "print.h"

enum code { PUSH, ADD, SUBTRACT, MULTIPLY, DIVIDE, SWAP, COPY, DROP, JUMP_IF, CALL, PRINT, STOP };

static int square(int number) { return number * number; }
static int halve(int number) { return number / 2; }
static int negate(int number) { return -number; }
static int count_ones(int number) {
  int count = 0;
  for (unsigned left = (unsigned)number; left; left &= left - 1) count++;
  return count;
}
static int (*const functions[])(int) = {square, halve, negate, count_ones};

static int stack[32];

static int run(const int *codes) {
  int top = 0;
  for (int at = 0;;) {
    int kept;
    switch (codes[at++]) {
      case PUSH: stack[top++] = codes[at++]; break;
      case ADD: top--; stack[top - 1] += stack[top]; break;
      case SUBTRACT: top--; stack[top - 1] -= stack[top]; break;
      case MULTIPLY: top--; stack[top - 1] *= stack[top]; break;
      case DIVIDE: top--; stack[top - 1] /= stack[top]; break;
      case SWAP: kept = stack[top - 1]; stack[top - 1] = stack[top - 2]; stack[top - 2] = kept; break;
      case COPY: stack[top] = stack[top - 1]; top++; break;
      case DROP: top--; break;
      case JUMP_IF: at = stack[--top] ? codes[at] : at + 1; break;
      case CALL: stack[top - 1] = functions[codes[at++]](stack[top - 1]); break;
      case PRINT: named_number("prints", stack[top - 1]); break;
      case STOP: return stack[top - 1];
      default: return -1;
    }
  }
}

static const int countdown[] = {PUSH, 100, PUSH, 7, ADD, PRINT, PUSH, 13, SUBTRACT, COPY, PUSH, 50, SWAP, SUBTRACT, PUSH, 31,
                                DIVIDE, COPY, CALL, 0, PRINT, DROP, CALL, 3, STOP};
static const int loop[] = {PUSH, 40, COPY, CALL, 0, PRINT, CALL, 1, CALL, 2, CALL, 3, PRINT, DROP, PUSH, 1, SUBTRACT, COPY,
                           JUMP_IF, 2, CALL, 2, STOP};
static const int nonsense[] = {PUSH, 3, 99};

static const struct program { const char *name; const int *codes; } programs[] = {
  {"countdown", countdown}, {"loop", loop}, {"nonsense", nonsense}};

static const char *kind(int number) {
  switch (number & 15) {
    case 0: return "none";
    case 1: return "one";
    case 2: case 3: return "few";
    case 4: case 5: case 6: return "some";
    case 7: return "seven";
    case 8: case 9: return "many";
    case 10: return "ten";
    case 11: return "eleven";
    default: return "more";
  }
}

int main(void) {
  int sum = 0;
  for (unsigned at = 0; at < sizeof programs / sizeof programs[0]; at++) {
    int result = run(programs[at].codes);
    named_number(programs[at].name, result);
    sum += result;
  }
  for (int number = -3; number < 16; number++) {
    print(kind(number));
    print(number == 15 ? "\n" : " ");
  }
  return sum & 255;
}
