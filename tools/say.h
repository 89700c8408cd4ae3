/* What the program says and how it ends. Every message of trouble goes to standard error, in one line, behind the program's name. */
#ifndef SAY_H
#define SAY_H

#include <stdio.h>

#define PROGRAM "dergamoyne-heap"

/* The exit status: done, or the answer is yes; the answer is no; wrong usage, or a file that can't be read or written. */
enum status { STATUS_YES = 0, STATUS_NO = 1, STATUS_TROUBLE = 2 };

/* Says it, as printf does, and returns the status. */
#if defined(__GNUC__)
__attribute__((format(printf, 2, 3)))
#endif
enum status say(enum status status, const char *format, ...);

/* The file to write to: the one of this name, or standard output where it is NULL or "-". NULL, once that is said, where it can't be
   opened. */
FILE *output_open(const char *name);

/* Closes it. The status is STATUS_TROUBLE, once that is said, where not all that was written has arrived. */
enum status output_close(FILE *out, const char *name);

#endif
