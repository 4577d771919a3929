/* Keeps the people who are in, takes every third of them, and prints their names. Then it asks for
 * a row that doesn't exist. people.h makes the people and the steps. Prints
 *
 *     ann
 *     null
 *     step 0: OutOfBounds: index 9, but 2 rows
 */
#include <stdio.h>

#include "people.h"

int main(void)
{
    const uint64_t past[] = {9};
    table people = make_people();
    if (!keep(&people, filter_by(&people, IS_IN)) && !keep(&people, every(&people, 3))) {
        print_names(&people);
    }
    if (keep(&people, take_of(past, 1))) {
        printf("%s\n", people.error.text);
    }
    release_people(&people);
    return 0;
}
