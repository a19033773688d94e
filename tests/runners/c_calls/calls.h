/* What the programs of this folder share. A program is main.c or stack.c with checks.c, relations.c and the file that is
 * named after a call. */
#ifndef CALLS_H
#define CALLS_H

#include "rafttwine.h"

/* The programs are also compiled by the kit's compiler, which has no headers of a C library: what they call of it is declared here. */
int chdir(const char *path);
int close(int file);
int memcmp(const void *one, const void *other, size_t length);
void *memset(void *to, int byte, size_t length);
int open(const char *path, int flags, ...);
int printf(const char *format, ...);
long read(int file, void *to, size_t most);
int snprintf(char *to, size_t most, const char *format, ...);

/* A lent output is filled with this byte before a call, to see what was written. */
#define UNTOUCHED 0xA5

/* The four bytes of a number as the library writes it. */
#define FOUR(number) \
    (uint32_t)(number) >> 24 & 255, (uint32_t)(number) >> 16 & 255, (uint32_t)(number) >> 8 & 255, (uint32_t)(number) & 255

/* The two bytes of a factor, likewise. */
#define TWO(number) (uint32_t)(number) >> 8 & 255, (uint32_t)(number) & 255

typedef struct sample {
    size_t length;
    uint8_t bytes[4096];
} sample;

/* How many facts were as expected, and how many were not. */
extern int right, wrong;

/* A file of the samples' folder. One that is missing or too long counts as wrong. */
sample read_sample(const char *name);

void expect(const char *what, long long found, long long expected);
void expect_bytes(const char *what, const void *found, const void *expected, size_t length);
void expect_all(const char *what, int byte, const void *found, size_t length);
void expect_placed(rafttwine_placed found, enum rafttwine_refusal number, long long place, size_t length);

/* In relations.c: the relation that takes most stack, once it is made. */
extern uint8_t deep_relation[];
extern size_t deep_relation_length;
void make_deep_relation(void);

/* Each call's file has these four: how much stack the header gives the call; a function that reads the samples all its questions need;
 * one that holds the call's answers to the expected ones; and one that makes one call. */
extern const long most_stack;
void prepare(void);
void check_call(void);
void one_call(void);

#endif
