#include "log.h"
#include "board.h"

void say(const char *text)
{
    for (; *text; text++)
        board_byte(*text);
}

void number(uint32_t number)
{
    char digits[10];
    int count = 0;
    do
        digits[count++] = (char)('0' + number % 10);
    while (number /= 10);
    while (count)
        board_byte(digits[--count]);
}

void tell(const char *what, uint32_t said)
{
    say(" ");
    say(what);
    say(" ");
    number(said);
}
