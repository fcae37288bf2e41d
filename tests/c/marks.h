/* Included once, by entries.c: what ihex.h gives for packed marks without a call of the library, IHEX_MARKS and ihex_marked.
 * Compiled as C++ too. */
#include <ihex.h>

/* a constant may be the size of an array, or stand in a directive */
#if IHEX_MARKS(IHEX_MAX_PAGE) != IHEX_MAX_MARKS
#error "IHEX_MAX_MARKS is not the length of the marks of a full page"
#endif
struct some_marks {
    uint8_t one[IHEX_MARKS(1)], two[IHEX_MARKS(9)], four[2 * IHEX_MARKS(16)], full[IHEX_MARKS(IHEX_MAX_PAGE)];
};

/* whether IHEX_MARKS rounds up, from no places to more than a page has */
int marks_round_up(void)
{
    size_t places;
    for (places = 0; places <= IHEX_MAX_PAGE + 9; places++)
        if (IHEX_MARKS(places) != (places + 7) / 8)
            return 0;
    return IHEX_MARKS(0) == 0 && sizeof(struct some_marks) == 1 + 2 + 4 + 8192;
}

/* whether it takes any expression, and is part of any */
int marks_take_expressions(size_t seven, size_t two)
{
    return IHEX_MARKS(seven + two) == 2 && IHEX_MARKS(seven - two) == 1 && IHEX_MARKS(seven | two << 3) == 3 &&
           IHEX_MARKS(two > seven ? two : seven + seven + two) == 2 && 8 / IHEX_MARKS(seven + two) == 4 &&
           IHEX_MARKS(seven + two) * 3 == 6;
}

/* whether no sum in it passes the greatest number */
int marks_of_the_most_places(void)
{
    size_t most = (size_t)-1, eighth = most / 8;
    return IHEX_MARKS(most) == eighth + 1 && IHEX_MARKS(most - 6) == eighth + 1 && IHEX_MARKS(most - 7) == eighth;
}

/* whether ihex_marked gives 1 at these places of three bytes alone, and 0 at the others */
static int marked_at(const uint8_t *marks, const int *wanted)
{
    size_t place;
    for (place = 0; place < 24; place++)
        if (ihex_marked(marks, place) != wanted[place])
            return 0;
    return 1;
}

/* the lowest bit is asked first, and each by itself */
int marks_are_asked(void)
{
    static const uint8_t some[] = {0x01, 0xC0, 0x16}, none[] = {0, 0, 0}, all[] = {0xFF, 0xFF, 0xFF};
    static const int at_some[] = {1, 0, 0, 0, 0, 0, 0, 0, 0, 0, 0, 0, 0, 0, 1, 1, 0, 1, 1, 0, 1, 0, 0, 0};
    static const int nowhere[24] = {0}, at_all[] = {1, 1, 1, 1, 1, 1, 1, 1, 1, 1, 1, 1, 1, 1, 1, 1, 1, 1, 1, 1, 1, 1, 1, 1};
    size_t p;
    for (p = 0; p < 24; p++) {
        uint8_t marks[3] = {0, 0, 0};
        int wanted[24] = {0};
        marks[p / 8] = (uint8_t)(1 << p % 8);
        wanted[p] = 1;
        if (!marked_at(marks, wanted))
            return 0;
    }
    return marked_at(some, at_some) && marked_at(none, nowhere) && marked_at(all, at_all);
}
