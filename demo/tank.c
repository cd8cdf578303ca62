/* The tank's table, schedule and names, and the run of a list of calls. */
#include "tank.h"
#include "models.h"

const uint8_t tank_table[] = {
    UNITS, OUTPUTS, INPUTS, FEEDS,
    /* owner of each output */
    LIGHT, PUMP, RETURN, HEATER, SKIMMER, WATER, WATER,
    /* owner of each input */
    PUMP, RETURN, HEATER, SKIMMER, WATER, WATER, WATER, WATER,
    /* kind of each input: 0 delayed, 1 reactive */
    0, 0, 0, 1, 1, 1, 1, 1,
    /* source of each input */
    WATER_OXYGEN, PUMP_FLOW, WATER_TEMPERATURE, RETURN_FLOW,
    LIGHT_LUX, RETURN_FLOW, HEATER_HEAT, SKIMMER_AIR,
    /* feeds: what flows in is what flows out at once */
    RETURN_INFLOW, RETURN_FLOW,
    SKIMMER_FLOW, SKIMMER_AIR,
};

/* Each unit when the values that it steps on are there; FAULTY is for a run that must be refused. */
const struct oorlichday_record tank_schedule[CALLS] = {
#ifdef FAULTY
    { OORLICHDAY_GET, HEATER_HEAT }, { OORLICHDAY_STEP, HEATER },
#else
    { OORLICHDAY_STEP, HEATER }, { OORLICHDAY_GET, HEATER_HEAT },
#endif
    { OORLICHDAY_SET, WATER_HEAT },
    { OORLICHDAY_STEP, RETURN }, { OORLICHDAY_STEP, PUMP },
    { OORLICHDAY_GET, PUMP_FLOW }, { OORLICHDAY_SET, RETURN_INFLOW },
    { OORLICHDAY_GET, RETURN_FLOW }, { OORLICHDAY_SET, WATER_FLOW },
    { OORLICHDAY_SET, SKIMMER_FLOW }, { OORLICHDAY_STEP, SKIMMER },
    { OORLICHDAY_GET, SKIMMER_AIR }, { OORLICHDAY_SET, WATER_AIR },
    { OORLICHDAY_STEP, LIGHT }, { OORLICHDAY_GET, LIGHT_LUX }, { OORLICHDAY_SET, WATER_LIGHT },
    { OORLICHDAY_STEP, WATER },
    { OORLICHDAY_GET, WATER_OXYGEN }, { OORLICHDAY_SET, PUMP_OXYGEN },
    { OORLICHDAY_GET, WATER_TEMPERATURE }, { OORLICHDAY_SET, HEATER_TEMPERATURE },
};

const char *const call_names[CALLS] = {
    "step light", "step pump", "step return", "step heater", "step skimmer", "step water",
    "get light lux", "get pump flow", "get return flow", "get heater heat", "get skimmer air",
    "get water temperature", "get water oxygen",
    "set pump oxygen", "set return inflow", "set heater temperature", "set skimmer flow",
    "set water light", "set water flow", "set water heat", "set water air",
};

/* The source's value, by the table. */
static void set(struct twin *twin, unsigned input)
{
    const uint8_t *sources = tank_table + 4 + OUTPUTS + 2 * INPUTS;
    twin->input[input] = twin->output[sources[input]];
}

static void get(struct twin *twin, unsigned output)
{
    twin->output[output] = model_output(twin, output);
}

static void take(struct twin *twin, unsigned call)
{
    if (call < UNITS)
        model_step(twin, call);
    else if (call < UNITS + OUTPUTS)
        get(twin, call - UNITS);
    else if (call < CALLS)
        set(twin, call - UNITS - OUTPUTS);
}

void twin_run(struct twin *twin, const uint8_t *calls, size_t count)
{
    for (size_t place = 0; place < count; place++)
        take(twin, calls[place]);
}

void twin_run_schedule(struct twin *twin, const struct oorlichday_record *records, size_t count)
{
    for (size_t place = 0; place < count; place++)
        switch (records[place].kind) {
        case OORLICHDAY_STEP: model_step(twin, records[place].number); break;
        case OORLICHDAY_GET: get(twin, records[place].number); break;
        case OORLICHDAY_SET: set(twin, records[place].number); break;
        default: break;
        }
}

void twin_start(struct twin *twin)
{
    *twin = (struct twin){ .temperature = 25000, .oxygen = 6500 };
    twin->state[PUMP] = 1000;
    /* Two passes: the second reads ports that the first has joined. */
    for (int pass = 0; pass < 2; pass++)
        for (unsigned call = UNITS; call < CALLS; call++)
            take(twin, call);
}
