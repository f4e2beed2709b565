/* Boot descriptions: what a core is booted with, and how it is used. README.md has their lines. */
#ifndef DESCRIPTION_H
#define DESCRIPTION_H

#include "tee_client_api.h"

#include <stdbool.h>

enum { MOST_APPLICATIONS = 16, MOST_THREADS = 16 };

struct described_application {
    char uuid[37];
    char *image; /* hexadecimal digits */
    int line;    /* of the description */
    bool can_unmask; /* whether its code can unmask cancellation */
};

struct description {
    unsigned cpus, threads, frames;
    struct described_application applications[MOST_APPLICATIONS];
    size_t application_count;
    bool has_key;
    uint8_t key[32];
    char *program, *files; /* paths, or null */
    bool is_virtual;       /* the clock */
    uint32_t steps;        /* that one entry is granted */
    unsigned limit;        /* milliseconds in which a caller is told of a program that is gone or stands still */
    bool has_history;      /* the core keeps its history */
};

/* Reads a description. Where it is wrong, the place and the cause are said. */
TEEC_Result description_read(struct description *description, const char *path);
void description_free(struct description *description);
/* The application of a UUID in the hyphenated form, or null. */
const struct described_application *description_application(const struct description *description, const char *uuid);

#endif
