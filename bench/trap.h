// The processor's trap flag: while it is set, SIGTRAP comes after every instruction. An emulator keeps to it as a processor does.
#ifndef TRAP_H
#define TRAP_H

// The trap flag is bit 8. The flags go through the stack, beyond the 128 bytes where the compiler may keep values unannounced.
#define FLAGS(change)                            \
    __asm__ volatile("lea -128(%%rsp), %%rsp\n\t" \
                     "pushfq\n\t"                \
                     change ", (%%rsp)\n\t"      \
                     "popfq\n\t"                 \
                     "lea 128(%%rsp), %%rsp" ::: "cc", "memory")

#define TRAP_ON FLAGS("orl $0x100")
#define TRAP_OFF FLAGS("andl $~0x100")
#endif
