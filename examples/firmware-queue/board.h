/* What the example needs of its board. */
#ifndef BOARD_H
#define BOARD_H

#include <stdint.h>

/* Ends the run with a line: all rounds were right where `wrong` is 0, or what was wrong and in which round. */
_Noreturn void stop(const char *wrong, uint32_t round);

#endif
