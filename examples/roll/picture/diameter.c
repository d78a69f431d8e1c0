#include "diameter.h"

#include <math.h>

#include "plant.h"

double diameter_of(const struct Row *row)
{
    return row->radius * OF_RADIUS;
}

double diameter_at(double length)
{
    return sqrt(CORE_RADIUS * CORE_RADIUS + length * WEB_THICKNESS / PI) * OF_RADIUS;
}
