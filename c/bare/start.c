/* What a Cortex-M needs to begin: where its stack is, and where the program starts. The rest is newlib's own, which prints by
   semihosting. */
extern char top_of_stack[];
extern void _start(void);

extern void *const vectors[2];
__attribute__((section(".vectors"), used)) void *const vectors[2] = {top_of_stack, (void *)_start};
