/* One lit pin, from pin 0 up to pin 7. */
#include <stdint.h>

#define ALL_OFF 0

void main(void)
{
    __R30 = 0x01;
    __R30 = 0x02;
    __R30 = 0x04;
    __R30 = 0x08;
    __R30 = 0x10;
    __R30 = 0x20;
    __R30 = 0x40;
    __R30 = 0x80;
    __R30 = ALL_OFF;
    __halt();
}
