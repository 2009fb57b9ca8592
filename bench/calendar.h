/* The days of a month in the Gregorian calendar, carried backward over all years; year 0 is a leap year. The plain C judges dates by it and
   the makers of lines draw theirs from it. */
#include <stdint.h>

static inline int is_leap(int year) { return year % 4 == 0 && (year % 100 != 0 || year % 400 == 0); }

/* `month` is 1 to 12. */
static inline int days_in(int year, int month) {
    static const uint8_t days[13] = {0, 31, 28, 31, 30, 31, 30, 31, 31, 30, 31, 30, 31};
    return month == 2 && is_leap(year) ? 29 : days[month];
}
