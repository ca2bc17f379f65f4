// The shelves: one for each letter with which a route may begin.
#include "spool.h"

static struct shelf shelves[2];
const char shelf_letters[2] = "ab";

static unsigned letter_place(char letter) {
    for (unsigned place = 0; place < 2; place++)
        if (shelf_letters[place] == letter)
            return place;
    return 2;
}

struct shelf *shelf_of(const char *route) {
    unsigned place = letter_place(route[0]);
    return place < 2 ? &shelves[place] : 0;
}
