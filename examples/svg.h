/*
 * Pieces of an SVG picture.
 */
#ifndef EXAMPLES_SVG_H
#define EXAMPLES_SVG_H

#include <stdio.h>

/* A text in an element: the signs that XML keeps for itself are written otherwise. */
void svg_text(FILE *out, const char *text);

/* A text at a place, in a style of svg_begin's. */
void svg_label(FILE *out, double x, double y, const char *style, const char *text);

/* A box; title: what is shown where the mouse points at it, or NULL. */
void svg_box(FILE *out, double x, double y, double width, double height, const char *fill, const char *title);

/* A line, in a style. */
void svg_line(FILE *out, double x1, double y1, double x2, double y2, const char *style);

/* The picture's begin, with its styles and patterns. It ends with </svg>. */
void svg_begin(FILE *out, int width, int height);

/* Fills that are patterns. */
#define SVG_UNKNOWN "url(#unknown)"
#define SVG_WAITED "url(#waited)"

#endif
