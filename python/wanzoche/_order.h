/*
** Who comes next among those who wait at paths of one process: see _order.c.
*/
#ifndef WANZOCHE_PYTHON_ORDER_H
#define WANZOCHE_PYTHON_ORDER_H

#include <Python.h>

#include "wanzoche.h"

/* Those who wait at one handle, in their order. */
typedef struct Line Line;

extern PyTypeObject *line_type, *place_type;

/* Makes both types. False with an exception. */
bool make_order_types(bool visits_type);

/* Whether somebody has waited for so long that starts may be withheld. */
bool line_withholds(const Line *line);

/* Whether the start of one who comes now, with this priority, is withheld for one who waits. */
bool line_is_ahead(Line *line, uint32_t operation, uint32_t priority, uint32_t worker);

/* Whether this worker has something in progress. */
bool line_holds(Line *line, uint32_t worker);

/* What the start of one who stands in line would be answered now: WANZOCHE_CAN_START, WANZOCHE_BLOCKED or WANZOCHE_WITHHELD. In the last case it
** is noted until when, so that it asks again then. `place` is a Place. */
uint32_t place_asks(PyObject *place);

#endif
