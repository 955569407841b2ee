/* The page of figures for people: HTML that needs no script, and that browsers read anew by themselves. */
#ifndef PROXY_PAGE_H
#define PROXY_PAGE_H

#include "proxy.h"

/* Notes each second what all threads have counted. Only the first thread calls these. */
void page_tick(const worker *worker);
void page_write(const worker *worker, buffer *out);

#endif
