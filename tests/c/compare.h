/* The three parts of the comparison. Each ends the run with status 1 at the first difference and prints
 * the input and both results. */
#ifndef COMPARE_H
#define COMPARE_H

void compare_reading(void);
void compare_writing(void);
void compare_mouse(void);

#endif
