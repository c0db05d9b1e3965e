#ifndef GREETING_H
#define GREETING_H

#define NAME "world"

/* Prints a greeting for name on standard output. */
void greet(const char *name);

#endif
