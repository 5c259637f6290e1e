/*
 * An answer as a number, and a number as an answer, for a test that compares what the card answers with what a model answers.
 */
#ifndef ANSWERS_H
#define ANSWERS_H

#include "peatribbon.h"

#define WORD(answer) ((answer).word)
#define AS(type, number) ((struct type){number})

#endif
