/* Moves all code that is linked after it: where a loop lies in memory changes its time, and must favour nobody. */
#ifndef PAD
#define PAD 0
#endif
#define TEXT(number) #number
#define FILL(number) __asm__(".text\n.fill " TEXT(number) ", 1, 0xCC")

FILL(PAD);
