/* Where kvm-racing.c has what its guests' CPUs need, as racing-program.c, their program, relies on it. */
#ifndef RACING_MACHINE_H
#define RACING_MACHINE_H

/* Memory from 0 on that no device reaches: page tables, segments, a struct control, the program, and the CPUs' stacks. */
enum { OWN_LEN = 0x100000, TABLES_AT = 0x1000, GDT_AT = 0x8000, CONTROL_AT = 0x9000, PROGRAM_AT = 0x10000, STACKS = 0x80000,
       STACK_LEN = 0x10000 };

/* Where the windows lie, and their lines of the interrupt controller, which has its vectors from one on. */
enum { WINDOWS_AT = 0x10000000, WINDOW_LEN = 0x1000, FIRST_VECTOR = 0x20 };
static const unsigned LINES[] = { 5, 7, 3, 6 };

/* A CPU that waits tells so by a port, in each so many turns, and by another one that it has ended. */
enum { REST_PORT = 0xf0, RESTS = 64, END_PORT = 0xf4 };

#endif
