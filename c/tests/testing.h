/* What the tests have in common: expectations, a line for each test, and a count of open descriptors around each. */
#ifndef TESTING_H
#define TESTING_H

#include <stdbool.h>
#include <stddef.h>

/* That a call returns this number. What differs is printed, and fails the test. */
#define EXPECT(want, call) expect(__LINE__, #call, (long long)(want), (long long)(call))

/* Runs a test, and prints 'name: ok' or 'name: FAILED'. A test fails where an expectation does, and where it leaves more or
 * fewer descriptors open than it found. */
#define RUN(test) run(#test, test)

void expect(int line, const char *call, long long want, long long got);
void run(const char *name, void (*test)(void));

/* How many expectations differed so far. */
size_t expected_wrong(void);

/* The status of a program whose tests have ended: 0 where all passed, else 1. */
int status(void);

/* How many descriptors this process has open. */
size_t open_fds(void);

/* Whether what was done since this was called last waited: the thread slept for a second. On a busy machine it waits for a processor as long,
 * which is not sleep. */
bool has_waited(void);

/* Whether this thread runs the tests. The library closes sockets in threads of its own, which may outlive a connection. */
bool runs_tests(void);

/* Ends the program with status 3: a call of the system failed that the tests need. */
void give_up(const char *what);

#endif
