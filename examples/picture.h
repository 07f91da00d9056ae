/*
 * The story as a picture: a lane a cpu over time, who ran in it, the watched
 * thread in its own colour, and marks where something was mapped or lost.
 */
#ifndef EXAMPLES_PICTURE_H
#define EXAMPLES_PICTURE_H

#include <stdio.h>

#include "story.h"
#include "verdict.h"

void picture(FILE *out, const struct story *story, const struct verdict *verdict);

#endif
