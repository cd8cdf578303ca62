/* The rules of the tank's models, one step rule a unit and one rule an output. */
#ifndef MODELS_H
#define MODELS_H

#include "tank.h"

/* The unit's new state from its old state and its inputs as they stand. */
void model_step(struct twin *twin, unsigned unit);

/* An output from its unit's state and the inputs that feed it. */
int32_t model_output(const struct twin *twin, unsigned output);

#endif
