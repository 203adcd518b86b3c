#define _POSIX_C_SOURCE 200809L
#include "fault.h"

#include <signal.h>
#include <stdio.h>
#include <string.h>
#include <unistd.h>

enum { DECIMAL = 10, DIGITS = 20 };

static _Thread_local const char *asked_call = "no call";
static _Thread_local size_t asked_number = 0;

void now_asking(const char *call, size_t number) {
    asked_call = call;
    asked_number = number;
}

/* Writes to standard error by the system call alone, as a signal's handler may. */
static void put(const char *text, size_t len) {
    if (write(STDERR_FILENO, text, len) < 0) {
        _exit(2);
    }
}

static void put_number(size_t number) {
    char digits[DIGITS];
    size_t at = DIGITS;
    do {
        digits[--at] = (char)('0' + number % DECIMAL);
        number /= DECIMAL;
    } while (number > 0 && at > 0);
    put(digits + at, DIGITS - at);
}

/* When it returns the fault happens again and ends the program, since the handler is for one fault only. */
static void on_fault(int signal) {
    static const char FIRST[] = "memory was touched that may not be touched: ", THEN[] = ", case ", LAST[] = "\n";
    (void)signal;
    put(FIRST, sizeof FIRST - 1);
    put(asked_call, strlen(asked_call));
    put(THEN, sizeof THEN - 1);
    put_number(asked_number);
    put(LAST, sizeof LAST - 1);
}

void tell_faults(void) {
    struct sigaction action;
    setvbuf(stdout, NULL, _IOLBF, BUFSIZ);
    memset(&action, 0, sizeof action);
    action.sa_handler = on_fault;
    action.sa_flags = (int)SA_RESETHAND;
    sigemptyset(&action.sa_mask);
    sigaction(SIGSEGV, &action, NULL);
    sigaction(SIGBUS, &action, NULL);
}
