/* A table of least members in four ways in which it could come back, and none: tests/archive/run has to find the four. */
#include <stdint.h>

#define TWO(x) x, 0
#define FOUR(x) TWO(x), TWO(1)
#define EIGHT(x) FOUR(x), FOUR(2)
#define SIXTEEN(x) EIGHT(x), EIGHT(3)
#define THIRTY_TWO(x) SIXTEEN(x), SIXTEEN(4)
#define SIXTY_FOUR(x) THIRTY_TWO(x), THIRTY_TWO(5)
#define TABLE SIXTY_FOUR(8), SIXTY_FOUR(6), SIXTY_FOUR(7), SIXTY_FOUR(6)

unsigned least_member(uint8_t byte);
unsigned look_up(const volatile void *table, uint8_t byte);

#if WAY == 1 /* looked up in place */
static const uint8_t table[256] = { TABLE };
unsigned least_member(uint8_t byte) { return table[byte]; }
#elif WAY == 2 /* filled on the stack of each call, and lent */
unsigned least_member(uint8_t byte) {
    uint8_t table[256] = { TABLE };
    return look_up(table, byte);
}
#elif WAY == 3 /* filled eight entries at a time, which are constants of the code; its first sixteen entries */
unsigned least_member(uint8_t byte) {
    volatile uint64_t table[2];
    table[0] = UINT64_C(0x0001000200010008);
    table[1] = UINT64_C(0x0001000200010003);
    return look_up(table, byte);
}
#elif WAY == 4 /* looked up in place, four bytes to an entry: its bytes are others, but they are many */
static const uint32_t table[256] = { TABLE };
unsigned least_member(uint8_t byte) { return table[byte]; }
#else /* counted */
unsigned least_member(uint8_t byte) { return byte == 0 ? 8 : (unsigned)__builtin_ctz(byte); }
#endif
