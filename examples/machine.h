/* What a program asks of the machine: a byte on the console, and the end of a transaction.
   All code runs in transactions. What a transaction stored and printed counts once it has committed; until then it may be
   rolled back and executed again. */

#ifndef MACHINE_H
#define MACHINE_H

/* Ends the transaction. The next one begins after the call. */
static inline void commit(void)
{
    register unsigned number asm("a7") = 0;
    asm volatile("ecall" : : "r"(number) : "memory");
}

/* Ends the transaction, and halts the core with this code. */
static inline __attribute__((noreturn)) void halt(int code)
{
    register int status asm("a0") = code;
    register unsigned number asm("a7") = 93;
    asm volatile("ecall" : : "r"(status), "r"(number) : "memory");
    __builtin_unreachable();
}

/* Says the phase of this core's next transaction, for `phases`; it is read where a transaction begins, so this comes right before a commit.
   The phase is register x27, which compiled code has to leave alone: compile with -ffixed-x27, as `tcc cc` does. */
static inline void set_phase(unsigned phase)
{
    asm volatile("mv x27, %0" : : "r"(phase));
}

/* Puts a byte on the console. */
static inline void print_char(char c)
{
    register unsigned byte asm("a0") = (unsigned char)c;
    register unsigned number asm("a7") = 1;
    asm volatile("ecall" : : "r"(byte), "r"(number) : "memory");
}

static inline void print(const char *text)
{
    while (*text)
        print_char(*text++);
}

/* A number in decimal, right-aligned in at least width places. */
static inline void print_number(int value, int width)
{
    char digits[11];
    unsigned rest = value < 0 ? -(unsigned)value : (unsigned)value;
    int count = 0;

    do {
        digits[count++] = '0' + rest % 10;
        rest /= 10;
    } while (rest);
    if (value < 0)
        digits[count++] = '-';
    while (width-- > count)
        print_char(' ');
    while (count)
        print_char(digits[--count]);
}

/* A number in decimal, with no place to spare. It needs no memory, so it leaves no loads in the report. */
static inline void print_plain(unsigned value)
{
    unsigned unit = 1;

    while (value / unit >= 10)
        unit *= 10;
    for (; unit; unit /= 10)
        print_char('0' + value / unit % 10);
}

/* Waits until a word that other cores change has this value. Each look is a transaction of its own: what others commit later
   is seen by the next one. */
static inline void wait_for(const unsigned *word, unsigned value)
{
    while (*word != value)
        commit();
}

#endif
