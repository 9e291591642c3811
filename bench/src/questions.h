/* A curve and questions from a fixed generator: the same on every machine. */
#ifndef QUESTIONS_H
#define QUESTIONS_H

#include "work.h"

/* A curve of n entries and as many questions, at most QUESTIONS. */
struct work work_of(size_t n, size_t questions);

#endif
