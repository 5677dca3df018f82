/* Shared by the tests. */
#ifndef TEST_H
#define TEST_H

#include "lapd.h"

#include <stdbool.h>
#include <stdio.h>
#include <stdlib.h>

/* Ends the test if a fact does not hold. */
#define WANT(fact)                                                                                   \
	do {                                                                                             \
		if (!(fact)) {                                                                               \
			fprintf(stderr, "%s:%d: not so: %s\n", __FILE__, __LINE__, #fact);                       \
			exit(1);                                                                                 \
		}                                                                                            \
	} while (0)

/* Ends the test if a call returns another code. */
#define WANT_CODE(call, code)                                                                        \
	do {                                                                                             \
		uint32_t code_ = (call);                                                                     \
		if (code_ != (uint32_t)(code)) {                                                             \
			fprintf(stderr, "%s:%d: %s: %s\n", __FILE__, __LINE__, lapd_code_string(code_), #call);  \
			exit(1);                                                                                 \
		}                                                                                            \
	} while (0)

#define DONE(call) WANT_CODE(call, LAPD_DONE)

#endif
