/* expect.h: counts the differences that a test finds, and prints them. */
#ifndef EXPECT_H
#define EXPECT_H

#include <stdbool.h>
#include <stdio.h>

#ifdef __cplusplus
#define LANGUAGE "c++"
#else
#define LANGUAGE "c"
#endif

/* The number of differences. */
static unsigned failed;

/* Prints a message if a result is wrong. Returns whether it is right. */
static inline bool expect(bool is_right, const char *title, const char *what) {
    if (!is_right) {
        printf(LANGUAGE ": %s: wrong %s\n", title, what);
        failed++;
    }
    return is_right;
}

#endif
