/* Lines on the serial port. */
#ifndef LOG_H
#define LOG_H
#include <stdint.h>
void say(const char *text);
void number(uint32_t number);
void tell(const char *what, uint32_t number); /* " WHAT NUMBER" */
#endif
