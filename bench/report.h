/* The tables and the picture of what was measured. */
#ifndef REPORT_H
#define REPORT_H

#include "measure.h"

/* Where the times of a group go. */
struct times *report_times(size_t code, enum kind kind, size_t count);

/* Prints the tables: the ratios to reach, all times and ratios, growth, and encodings that are refused late. */
void report_tables(void);

/* Writes ratios.svg to a folder, a bar for each ratio to reach; gives whether it was written. */
int report_picture(const char *folder);

#endif
