// Where the C kernels of bench/kernels find their input and leave their output: words, row by row.
typedef int word;
typedef unsigned char byte;
enum { WIDTH = 64, HEIGHT = 48 };
static word *const in = (word *)0x00200000;
static word *const out = (word *)0x00220000;
static word *const stages = (word *)0x00240000;

static word floor_of(word value, word divisor) {
    word quotient = value / divisor;
    return value % divisor < 0 ? quotient - 1 : quotient;
}

static word lesser(word a, word b) { return a < b ? a : b; }

static word greater(word a, word b) { return a > b ? a : b; }

void kernel(void);

__attribute__((naked, section(".start"))) void start(void) { __asm__("lui sp, 0x300\n call kernel\n ecall"); }
