/* picolibc's standard output and error are the console of the core; its standard input is at its end; exit() halts the core. */

#include <stdio.h>
#include <stdlib.h>

#include "machine.h"

static int put(char byte, FILE *file)
{
    (void)file;
    print_char(byte);
    return 0;
}

static int get(FILE *file)
{
    (void)file;
    return EOF;
}

static FILE console = FDEV_SETUP_STREAM(put, get, NULL, _FDEV_SETUP_RW);
FILE *const stdin = &console, *const stdout = &console, *const stderr = &console;

void _exit(int code)
{
    halt(code);
}
