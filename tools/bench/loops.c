// The loops of the bench, for the host and for the machine: `make_words` makes code words of them, once for each NAME.
//
// Each takes a number of turns, at least 1, and gives a number that depends on every turn.
#define APART __attribute__((noipa))

#ifdef __riscv
#define ROOM ((unsigned *)0x11000)

unsigned LOOP(unsigned turns);

// The first function of the code: the word before it puts the number of turns into a0.
APART void start(unsigned turns) {
  register unsigned a0 __asm__("a0") = LOOP(turns);
  register unsigned a7 __asm__("a7") = 93;
  for (;;) __asm__ volatile("ecall" : : "r"(a0), "r"(a7));
}
#else
static unsigned room[16384];
#define ROOM room
#endif

#if !defined LOOP_IS || LOOP_IS == 1
// shifts, products and quotients
APART unsigned arithmetic(unsigned turns) {
  unsigned state = 2463534242u, sum = 0;
  do {
    state ^= state << 13;
    state ^= state >> 17;
    state ^= state << 5;
    unsigned divisor = state >> 20 | 1;
    sum = sum * 1664525 + state / divisor;
    sum ^= (unsigned)((unsigned long long)state * sum >> 32) + state % divisor;
  } while (--turns);
  return sum;
}
#endif

#if !defined LOOP_IS || LOOP_IS == 2
// words, halves and bytes all over 64 KiB
APART unsigned memory(unsigned turns) {
  unsigned char *bytes = (unsigned char *)ROOM;
  unsigned at = 0, sum = 0;
  do {
    sum += *(unsigned *)(bytes + at) ^ turns;
    *(unsigned *)(bytes + at) = sum;
    *(unsigned short *)(bytes + (at ^ 0x8004)) += (unsigned short)sum;
    bytes[at ^ 0x40ff] ^= (unsigned char)turns;
    at = (at + 4100) & 0xfffc;
  } while (--turns);
  return sum;
}
#endif

#if !defined LOOP_IS || LOOP_IS == 3
// calls and returns, two deep, with registers kept on the stack
APART unsigned leaf(unsigned left, unsigned right) { return (left >> 3) + (right ^ left); }

APART unsigned middle(unsigned number, unsigned turns) { return leaf(number, turns) + leaf(turns, number + 1); }

APART unsigned calls(unsigned turns) {
  unsigned sum = 1;
  do sum = middle(sum, turns) + leaf(sum, 77); while (--turns);
  return sum;
}
#endif

#if !defined LOOP_IS || LOOP_IS == 4
// a compressor: of a text of 16 KiB, place by place, the longest match behind a table of hashes, and what is written of it
#define TEXT 16384u

static inline void fill(unsigned char *text, unsigned seed) {
  static const char letters[] __attribute__((section(".text.letters"))) = "etaoin shrdlucmfwy";
  for (unsigned at = 0; at < TEXT; at++) {
    seed = seed * 1664525 + 1013904223;
    text[at] = seed >> 30 && at > 64 ? text[at - 1 - (seed >> 24 & 63)] : (unsigned char)letters[(seed >> 16 & 0xff) % 18];
  }
}

APART unsigned compress(unsigned turns) {
  unsigned char *text = (unsigned char *)ROOM;
  unsigned short *last = (unsigned short *)(text + TEXT);
  unsigned at = TEXT, sum = 0, seed = 1;
  do {
    if (at + 36 > TEXT) {
      fill(text, seed++);
      for (unsigned one = 0; one < 4096; one++) last[one] = 0;
      at = 0;
    }
    unsigned key = (text[at] << 10 ^ text[at + 1] << 5 ^ text[at + 2]) & 4095, before = last[key], length = 0;
    last[key] = (unsigned short)at;
    if (before < at)
      while (length < 32 && text[before + length] == text[at + length]) length++;
    if (length > 2) {
      sum = (sum << 5 | sum >> 27) + (length << 16 | (at - before));
      at += length;
    } else {
      sum = (sum << 3 | sum >> 29) ^ text[at++];
    }
  } while (--turns);
  return sum;
}
#endif

#if !defined LOOP_IS || LOOP_IS == 5
// SHA-1 (FIPS 180-4): a round a turn, of blocks of 16 words
APART unsigned hash(unsigned turns) {
  unsigned *words = ROOM, number = 1, round = 80;
  unsigned state[5] = {0x67452301, 0xefcdab89, 0x98badcfe, 0x10325476, 0xc3d2e1f0};
  unsigned a = state[0], b = state[1], c = state[2], d = state[3], e = state[4];
  do {
    if (round == 80) {
      a = state[0] += a, b = state[1] += b, c = state[2] += c, d = state[3] += d, e = state[4] += e;
      for (round = 0; round < 16; round++) words[round] = number = number * 1664525 + 1013904223;
      for (; round < 80; round++) {
        unsigned word = words[round - 3] ^ words[round - 8] ^ words[round - 14] ^ words[round - 16];
        words[round] = word << 1 | word >> 31;
      }
      round = 0;
    }
    unsigned mixed, constant;
    if (round < 20) mixed = (b & c) | (~b & d), constant = 0x5a827999;
    else if (round < 40) mixed = b ^ c ^ d, constant = 0x6ed9eba1;
    else if (round < 60) mixed = (b & c) | (b & d) | (c & d), constant = 0x8f1bbcdc;
    else mixed = b ^ c ^ d, constant = 0xca62c1d6;
    unsigned next = (a << 5 | a >> 27) + mixed + e + constant + words[round++];
    e = d, d = c, c = b << 30 | b >> 2, b = a, a = next;
  } while (--turns);
  return a ^ b ^ c ^ d ^ e;
}
#endif

#if !defined LOOP_IS || LOOP_IS == 6
// an interpreter: an instruction a turn of a stack machine that counts the steps of 3n + 1
enum { PUSH, ADD, MUL, HALF, ODD, DUP, DROP, LOAD, STORE, JUMP, UNLESS };

APART unsigned interpret(unsigned turns) {
  unsigned *code = ROOM, *stack = ROOM + 64, *cells = ROOM + 128, place = 0, depth = 0, length = 0;
#define PUT(op, value) (code[length++] = (op) | (unsigned)(value) << 8)
  PUT(LOAD, 0), PUT(PUSH, 1), PUT(ADD, 0), PUT(DUP, 0), PUT(STORE, 0), PUT(STORE, 1);
  PUT(LOAD, 2), PUT(PUSH, 1), PUT(ADD, 0), PUT(STORE, 2), PUT(LOAD, 1), PUT(ODD, 0), PUT(UNLESS, 22);
  PUT(LOAD, 1), PUT(HALF, 0), PUT(UNLESS, 25);
  PUT(LOAD, 1), PUT(PUSH, 3), PUT(MUL, 0), PUT(PUSH, 1), PUT(ADD, 0), PUT(JUMP, 24);
  PUT(LOAD, 1), PUT(HALF, 0), PUT(STORE, 1), PUT(JUMP, 26), PUT(LOAD, 1), PUT(HALF, 0), PUT(UNLESS, 0), PUT(JUMP, 6);
  do {
    unsigned op = code[place] & 255, value = code[place] >> 8;
    place++;
    switch (op) {
      case PUSH: stack[depth++] = value; break;
      case ADD: depth--, stack[depth - 1] += stack[depth]; break;
      case MUL: depth--, stack[depth - 1] *= stack[depth]; break;
      case HALF: stack[depth - 1] >>= 1; break;
      case ODD: stack[depth - 1] &= 1; break;
      case DUP: stack[depth] = stack[depth - 1], depth++; break;
      case DROP: depth--; break;
      case LOAD: stack[depth++] = cells[value]; break;
      case STORE: cells[value] = stack[--depth]; break;
      case JUMP: place = value; break;
      case UNLESS: if (stack[--depth] == 0) place = value; break;
    }
  } while (--turns);
  return cells[0] ^ cells[1] << 8 ^ cells[2] << 16 ^ place;
}
#endif
