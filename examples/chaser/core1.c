/* One lit pin, from pin 7 down to pin 0. */
#define PIN7 0x80
#define PIN6 0x40
#define PIN5 0x20
#define PIN4 0x10
#define PIN3 0x08
#define PIN2 0x04
#define PIN1 0x02
#define PIN0 0x01
#define OFF 0

void main(void)
{
    __R30 = PIN7;
    __R30 = PIN6;
    __R30 = PIN5;
    __R30 = PIN4;
    __R30 = PIN3;
    __R30 = PIN2;
    __R30 = PIN1;
    __R30 = PIN0;
    __R30 = OFF;
    __halt();
}
