/* What --help and --version print. */
#ifndef STM_HELP_H
#define STM_HELP_H

void print_help(void);
void print_version(void);

#endif
