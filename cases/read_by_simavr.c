/* Tells what simavr's reader of value change dumps finds in one: each signal's name and bits, and its values with their ticks, each of them a cycle. */
#include <inttypes.h>
#include <stdio.h>

#include <simavr/sim_avr.h>
#include <simavr/sim_cycle_timers.h>
#include <simavr/sim_vcd_file.h>

static avr_t *avr;

static void told(struct avr_irq_t *irq, uint32_t value, void *signal) {
    (void)irq;
    printf("value %s %" PRIu64 " %" PRIu32 "\n", ((avr_vcd_signal_t *)signal)->name, (uint64_t)avr->cycle, value);
}

int main(int count, char **words) {
    static avr_vcd_t dump;
    avr = avr_make_mcu_by_name("atmega88");
    if (count != 2 || !avr || avr_init(avr)) {
        return 2;
    }
    avr->frequency = 1000000;
    if (avr_vcd_init_input(avr, words[1], &dump)) {
        return 1;
    }
    for (int k = 0; k < dump.signal_count; k++) {
        printf("signal %s %d\n", dump.signal[k].name, dump.signal[k].size);
        avr_irq_register_notify(&dump.signal[k].irq, told, &dump.signal[k]);
    }
    while (avr->state != cpu_Done) {
        avr_cycle_count_t wait = avr_cycle_timer_process(avr);
        avr->cycle += wait ? wait : 1;
    }
    return 0;
}
