/* The vectors of a Cortex-M for newlib with semihosting. A fault ends the run. */
extern void _mainCRTStartup(void), top_of_stack(void), _exit(int);

static void fault(void) { _exit(1); }

/* newlib saves the registers of the floating point unit, if there is one, so it has to be on. */
static void reset(void) {
#ifdef __ARM_FP
    *(volatile unsigned *)0xE000ED88 |= 0xF00000;
#endif
    _mainCRTStartup();
}

__attribute__((section(".vectors"), used)) static void (*const vectors[16])(void) = {
    top_of_stack, reset, fault, fault, fault, fault, fault};
