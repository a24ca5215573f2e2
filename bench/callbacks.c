/* The application of bench/callbacks.sh for Icarus Verilog: as many callbacks on top.r as CALLBACKS
   says, each of which counts and prints its line as vhost does. */
#include <vpi_user.h>
#include <stdio.h>

#ifndef CALLBACKS
#define CALLBACKS 1000
#endif

static long fires;

static PLI_INT32 seen(p_cb_data data)
{
    s_vpi_time now = { vpiSimTime, 0, 0, 0 };
    vpi_get_time(NULL, &now);
    fprintf(stderr, "%u fire c%ld\n", now.low, (long)data->user_data);
    fires++;
    return 0;
}

static PLI_INT32 over(p_cb_data data)
{
    (void)data;
    vpi_printf("fires %ld\n", fires);
    return 0;
}

static PLI_INT32 init(p_cb_data data)
{
    (void)data;
    vpiHandle r = vpi_handle_by_name((char *)"top.r", NULL);
    for (long i = 0; i < CALLBACKS; i++) {
        s_vpi_time time = { vpiSuppressTime, 0, 0, 0 };
        s_vpi_value value = { vpiSuppressVal, { 0 } };
        s_cb_data watch = { cbValueChange, seen, r, &time, &value, 0, (PLI_BYTE8 *)i };
        vpi_register_cb(&watch);
    }
    return 0;
}

static void start(void)
{
    s_cb_data compiled = { cbEndOfCompile, init, NULL, NULL, NULL, 0, NULL };
    s_cb_data end = { cbEndOfSimulation, over, NULL, NULL, NULL, 0, NULL };
    vpi_register_cb(&compiled);
    vpi_register_cb(&end);
}

void (*vlog_startup_routines[])(void) = { start, 0 };
