/*
 * Ticks: call 0.
 *
 * "A tick takes one from each running time_out. Those reaching 0 are woken
 * with 13 in ascending slot order". "A time_out runs on during suspension. ...
 * A time_out of n always ends at the n-th tick."
 */
#include "calls.h"
#include "identifiers.h"

enum status tick(struct kernel *k, const uint32_t *arg, struct answer *a)
{
    (void)arg;
    for (uint32_t left = k->running_time_outs; left != 0; left &= left - 1) {
        uint32_t slot = lowest_slot(left);

        k->task[slot].time_out--;
        if (k->task[slot].time_out == 0) {
            wait_leave_ungranted(k, slot);
            wake(k, slot, TIME_OUT, a);
        }
    }
    return OK;
}
