/* Names for a host of controller.json, made by `scicos-kit header`: blocks, ports, columns, ticks and types.
   A value is told by `sci_val` when its block acts. Before the first time it is unknown to a host. */
#ifndef SCI_NAMES_H
#define SCI_NAMES_H

#include <stdint.h>

/* Of which diagram these names are: its blocks, its greatest column, and what `cksum` tells of its C. With
   gcc -DSCI_PROGRAM="$(cksum < program.c | cut -d' ' -f1)u" names of another diagram are an error. */
#define SCI_BLOCKS 11
#define SCI_COLUMNS 2
#define SCI_CHECKSUM 4036255265u
#if defined SCI_PROGRAM
#if SCI_PROGRAM != SCI_CHECKSUM
#error "the names are of another diagram than the program: make them again by scicos-kit header"
#endif
#endif

/* tick: EVTDLY_c, events, object 1, design.py:34 */
#define SCI_TICK 1
#define SCI_TICK_TICKS 10 /* from one event to the next */
#define SCI_TICK_FIRST 0 /* the date of the first event */

/* wanted: SENSOR, int16[1x1], object 2, controller.json:3 */
#define SCI_WANTED 2
typedef int16_t sci_wanted_t;
#define SCI_WANTED_T_MIN INT16_MIN
#define SCI_WANTED_T_MAX INT16_MAX
#define SCI_WANTED_COLUMN 1 /* input 1 of controller: wanted */

/* speed: SENSOR, int16[1x1], object 3, controller.json:4 */
#define SCI_SPEED 3
typedef int16_t sci_speed_t;
#define SCI_SPEED_T_MIN INT16_MIN
#define SCI_SPEED_T_MAX INT16_MAX
#define SCI_SPEED_COLUMN 2 /* input 2 of controller: motor.speed */

/* controller.error: SUMMATION, int16[1x1], object 4/4, design.py:16 */
#define SCI_CONTROLLER_ERROR 4
typedef int16_t sci_controller_error_t;
#define SCI_CONTROLLER_ERROR_T_MIN INT16_MIN
#define SCI_CONTROLLER_ERROR_T_MAX INT16_MAX

/* controller.integral: DOLLAR_m, int16[1x1], object 4/5, design.py:17 */
#define SCI_CONTROLLER_INTEGRAL 5
typedef int16_t sci_controller_integral_t;
#define SCI_CONTROLLER_INTEGRAL_T_MIN INT16_MIN
#define SCI_CONTROLLER_INTEGRAL_T_MAX INT16_MAX

/* controller.drive_shifted: SHIFT, int16[1x1], object 4/6, design.py:18 */
#define SCI_CONTROLLER_DRIVE_SHIFTED 6
typedef int16_t sci_controller_drive_shifted_t;
#define SCI_CONTROLLER_DRIVE_SHIFTED_T_MIN INT16_MIN
#define SCI_CONTROLLER_DRIVE_SHIFTED_T_MAX INT16_MAX

/* controller.drive_sum: SUMMATION, int16[1x1], object 4/7, design.py:18 */
#define SCI_CONTROLLER_DRIVE_SUM 7
typedef int16_t sci_controller_drive_sum_t;
#define SCI_CONTROLLER_DRIVE_SUM_T_MIN INT16_MIN
#define SCI_CONTROLLER_DRIVE_SUM_T_MAX INT16_MAX

/* controller.drive: SATURATION, int16[1x1], object 4/8, design.py:18 */
#define SCI_CONTROLLER_DRIVE 8
typedef int16_t sci_controller_drive_t;
#define SCI_CONTROLLER_DRIVE_T_MIN INT16_MIN
#define SCI_CONTROLLER_DRIVE_T_MAX INT16_MAX

/* controller.integral_next_sum: SUMMATION, int16[1x1], object 4/9, design.py:19 */
#define SCI_CONTROLLER_INTEGRAL_NEXT_SUM 9
typedef int16_t sci_controller_integral_next_sum_t;
#define SCI_CONTROLLER_INTEGRAL_NEXT_SUM_T_MIN INT16_MIN
#define SCI_CONTROLLER_INTEGRAL_NEXT_SUM_T_MAX INT16_MAX

/* controller.integral_next_shifted: SHIFT, int16[1x1], object 4/10, design.py:19 */
#define SCI_CONTROLLER_INTEGRAL_NEXT_SHIFTED 10
typedef int16_t sci_controller_integral_next_shifted_t;
#define SCI_CONTROLLER_INTEGRAL_NEXT_SHIFTED_T_MIN INT16_MIN
#define SCI_CONTROLLER_INTEGRAL_NEXT_SHIFTED_T_MAX INT16_MAX

/* controller.integral_next: SUMMATION, int16[1x1], object 4/11, design.py:19 */
#define SCI_CONTROLLER_INTEGRAL_NEXT 11
typedef int16_t sci_controller_integral_next_t;
#define SCI_CONTROLLER_INTEGRAL_NEXT_T_MIN INT16_MIN
#define SCI_CONTROLLER_INTEGRAL_NEXT_T_MAX INT16_MAX

#endif
