/* Settings for the declarations of V11, with CORES cores. */
#ifndef FREERTOS_CONFIG_H
#define FREERTOS_CONFIG_H
#include <stdint.h>
#define configNUMBER_OF_CORES CORES
#define configTASK_NOTIFICATION_ARRAY_ENTRIES 3
#define configUSE_TRACE_FACILITY 1
#define INCLUDE_vTaskDelay 1
#define INCLUDE_xTaskDelayUntil 1
#define configMAX_TASK_NAME_LEN 16
uint32_t read_timer( void );
#define MUVEHYI_TIME() read_timer()
#include "muvehyi_trace.h"
#endif
