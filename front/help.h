/* The texts of --help. */
#ifndef HELP_H
#define HELP_H

#include <stdbool.h>

/* Prints what there is. */
void help_print_all(void);

/* Prints the help for a command; false if there is none of that name. */
bool help_print(const char *command);

#endif
