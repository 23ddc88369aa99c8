/* What calls.c calls: the delays that four codes mean, as one number (../CASES.md, kind m). */
#include <stdint.h>

uint64_t belt_meaning(uint16_t first, uint16_t second, uint16_t third, uint16_t fourth);
