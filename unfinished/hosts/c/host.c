// A small host: runs the start-up script in the file that is its argument, and prints the listing.
#include <errno.h>
#include <stdint.h>
#include <stdio.h>
#include <stdlib.h>
#include <string.h>

#include "depot.h"

// One byte more than a script may have, so that a longer file is seen.
static uint8_t script[DEPOT_MOST_SCRIPT + 1];
static uint8_t out[DEPOT_MOST_OUT];

// Reads the whole file into `script` and gives its length through `len`. Says on standard error why it cannot.
static int read_script(const char *name, size_t *len)
{
    FILE *file = fopen(name, "rb");
    if (file == NULL) {
        fprintf(stderr, "%s: %s\n", name, strerror(errno));
        return -1;
    }
    errno = 0;
    size_t n = fread(script, 1, sizeof script, file);
    int failed = ferror(file);
    int why = errno;
    fclose(file);
    if (failed) {
        fprintf(stderr, "%s: %s\n", name, strerror(why));
        return -1;
    }
    if (n > DEPOT_MOST_SCRIPT) {
        fprintf(stderr, "%s: more than %d bytes\n", name, DEPOT_MOST_SCRIPT);
        return -1;
    }
    *len = n;
    return 0;
}

int main(int argc, char **argv)
{
    if (argc != 2) {
        fprintf(stderr, "usage: c-host FILE\n");
        return EXIT_FAILURE;
    }
    size_t script_len;
    if (read_script(argv[1], &script_len) != 0) {
        return EXIT_FAILURE;
    }
    size_t n = depot_run(script, script_len, out, sizeof out);
    if (n == DEPOT_DOES_NOT_FIT) {
        fprintf(stderr, "%s: the listing has more than %zu bytes\n", argv[1], sizeof out);
        return EXIT_FAILURE;
    }
    if (fwrite(out, 1, n, stdout) != n || fflush(stdout) != 0) {
        fprintf(stderr, "standard output: %s\n", strerror(errno));
        return EXIT_FAILURE;
    }
    return EXIT_SUCCESS;
}
