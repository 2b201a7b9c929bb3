/* What a controller by hand stands on: its sensors' next values, its actuators, and for how many events it is run. */
#include <stdint.h>

int32_t take(int column);
void give(int output, int32_t value);
extern int64_t events;
void run(void);
