/* The end of a program that also runs on a board without an operating system (board.c): where there is one, its lines go to standard output. */
#if __STDC_HOSTED__
#include <stdio.h>

void put(const char *line, unsigned length) { fwrite(line, 1, length, stdout); }

int main(void) {
    answers();
    return 0;
}
#endif
