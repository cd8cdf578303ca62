/* Simple models of a densely stocked reef tank, in whole numbers. */
#include "models.h"

enum { MINUTES_A_DAY = 1440, SATURATED = 7000, ROOM_TEMPERATURE = 21000, LOW_OXYGEN = 4200 };

static int between(int32_t minute, int32_t from, int32_t to)
{
    return from <= minute && minute < to;
}

/* By day the pump runs all the time; at night it rests twenty minutes in each hour. */
static int32_t pump_target(int32_t minute, int32_t oxygen)
{
    int night = minute < 6 * 60 || minute >= 22 * 60;
    return oxygen < LOW_OXYGEN || !night || minute % 60 >= 20 ? 1000 : 100;
}

/* Fish and corals use oxygen, more of it for an hour after each feeding. */
static int32_t used_oxygen(int32_t minute)
{
    return between(minute, 9 * 60, 10 * 60) || between(minute, 18 * 60, 19 * 60) ? 260 : 160;
}

static void step_water(struct twin *t)
{
    int32_t mixing = t->input[WATER_FLOW] / 4 + t->input[WATER_AIR];
    int32_t from_air = (SATURATED - t->oxygen) * mixing / 20000;
    int32_t from_light = t->input[WATER_LIGHT] * 90 / 1000;
    t->oxygen += from_air + from_light - used_oxygen(t->minute[WATER]);
    if (t->oxygen < 0)
        t->oxygen = 0;
    t->temperature += t->input[WATER_HEAT] / 12 - (t->temperature - ROOM_TEMPERATURE) / 300;
}

void model_step(struct twin *t, unsigned unit)
{
    switch (unit) {
    case PUMP:
        t->state[PUMP] += (pump_target(t->minute[PUMP], t->input[PUMP_OXYGEN]) -
                           t->state[PUMP]) / 2;
        break;
    case RETURN: /* the sump's level follows the flow */
        t->state[RETURN] += (t->input[RETURN_INFLOW] - t->state[RETURN]) / 8;
        break;
    case HEATER:
        if (t->input[HEATER_TEMPERATURE] < 24900)
            t->state[HEATER] = 1;
        if (t->input[HEATER_TEMPERATURE] > 25100)
            t->state[HEATER] = 0;
        break;
    case SKIMMER: /* foam builds up with the flow */
        t->state[SKIMMER] += (t->input[SKIMMER_FLOW] - t->state[SKIMMER]) / 4;
        break;
    case WATER:
        step_water(t);
        break;
    default:
        break;
    }
    t->minute[unit] = (t->minute[unit] + 1) % MINUTES_A_DAY;
}

int32_t model_output(const struct twin *t, unsigned output)
{
    int32_t minute = t->minute[LIGHT];
    switch (output) {
    case LIGHT_LUX:
        return between(minute, 480, 1200) ? (minute - 480) * (1200 - minute) / 130 : 0;
    case PUMP_FLOW:
        return 4 * t->state[PUMP];
    case RETURN_FLOW:
        return t->input[RETURN_INFLOW] * 9 / 10 + t->state[RETURN] / 50;
    case HEATER_HEAT:
        return 300 * t->state[HEATER];
    case SKIMMER_AIR:
        return t->input[SKIMMER_FLOW] / 5 + t->state[SKIMMER] / 10;
    case WATER_TEMPERATURE:
        return t->temperature;
    case WATER_OXYGEN:
        return t->oxygen;
    default:
        return 0;
    }
}
