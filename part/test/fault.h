/* Says which question is asked where the program touches memory that it may not touch. */
#ifndef FAULT_H
#define FAULT_H

#include <stddef.h>

/* From now on a fault is told, and ends the program. Lines that were written to standard output before are not lost. */
void tell_faults(void);

/* The question that this thread asks next: the call's name and the number of its case. */
void now_asking(const char *call, size_t number);

#endif
