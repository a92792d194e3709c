/* How a program of the harness in C ends where something failed. */
#ifndef NEED_H
#define NEED_H

/* Ends the program if something failed, with a word about it. */
void need(int holds, const char *what);

#endif
