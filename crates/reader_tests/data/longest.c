#include <stdio.h>
#include <stdlib.h>
#include <string.h>

/* The longest of some words, the first of those that are equally long. */
static const char *longest(char *const *words, int count)
{
    const char *best = "";

    for (int at = 0; at < count; at++)
        if (strlen(words[at]) > strlen(best)) // no equal one
            best = words[at];
    return best;
}

int main(int argc, char **argv)
{
    if (argc < 2)
        exit(EXIT_FAILURE);
    printf("%s\n", longest(argv + 1, argc - 1));
    return EXIT_SUCCESS;
}
