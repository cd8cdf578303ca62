/* The reef tank of the demonstration: its packed table, its schedule, the names of its calls, its twin. */
#ifndef TANK_H
#define TANK_H

#include "../include/oorlichday.h"

enum { UNITS = 6, OUTPUTS = 7, INPUTS = 8, FEEDS = 2, CALLS = UNITS + OUTPUTS + INPUTS };

enum unit { LIGHT, PUMP, RETURN, HEATER, SKIMMER, WATER };
enum output { LIGHT_LUX, PUMP_FLOW, RETURN_FLOW, HEATER_HEAT, SKIMMER_AIR,
              WATER_TEMPERATURE, WATER_OXYGEN };
enum input { PUMP_OXYGEN, RETURN_INFLOW, HEATER_TEMPERATURE, SKIMMER_FLOW,
             WATER_LIGHT, WATER_FLOW, WATER_HEAT, WATER_AIR };

/* Every unit's state and every port's value: light in parts of a thousand, flow in litres an hour,
   heat in watts, temperature in thousandths of a degree, oxygen in micrograms a litre. */
struct twin {
    int32_t minute[UNITS];
    int32_t state[UNITS];
    int32_t temperature, oxygen;
    int32_t output[OUTPUTS];
    int32_t input[INPUTS];
};

extern const uint8_t tank_table[4 + OUTPUTS + 3 * INPUTS + 2 * FEEDS];
extern const char *const call_names[CALLS];

/* The firmware's own schedule of one step. */
extern const struct oorlichday_record tank_schedule[CALLS];

/* Everything at midnight, joined ports equal. */
void twin_start(struct twin *twin);

/* One step of a minute by the given calls, or by a schedule. */
void twin_run(struct twin *twin, const uint8_t *calls, size_t count);
void twin_run_schedule(struct twin *twin, const struct oorlichday_record *records, size_t count);

#endif
