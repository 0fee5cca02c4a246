/* `version WANTED`: returns 1 unless the header's numbers, and its text, are this version. */
#include "rackplan.h"

#include <stdio.h>
#include <string.h>

int main(int argc, char **argv)
{
    char numbers[40];
    int good;
    sprintf(numbers, "%d.%d.%d", RACKPLAN_VERSION_MAJOR, RACKPLAN_VERSION_MINOR,
            RACKPLAN_VERSION_PATCH);
    good = argc == 2 && strcmp(numbers, argv[1]) == 0 && strcmp(RACKPLAN_VERSION, argv[1]) == 0;
    printf("%s the header is version %s, \"%s\"\n", good ? "ok" : "not ok", numbers,
           RACKPLAN_VERSION);
    return good ? 0 : 1;
}
