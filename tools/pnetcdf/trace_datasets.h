/* What is told of an open dataset. */
#ifndef TRACE_DATASETS_H
#define TRACE_DATASETS_H

/* After definitions: the layout, and the hints in force. */
void defined_fields(int ncid);

#endif
