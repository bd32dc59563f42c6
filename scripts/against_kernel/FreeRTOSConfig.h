/* The settings with which scripts/against-kernel.sh builds a kernel, those that docs/KERNEL.md fixes. */
#ifndef FREERTOS_CONFIG_H
#define FREERTOS_CONFIG_H

#include <stdint.h>

#define configUSE_PREEMPTION 1
#ifndef configUSE_TIME_SLICING
#define configUSE_TIME_SLICING 1
#endif
#define configUSE_IDLE_HOOK 1
#define configUSE_TICK_HOOK 0
#define configUSE_16_BIT_TICKS 0
#define configIDLE_SHOULD_YIELD 0
#define configMAX_PRIORITIES 6
#define configMINIMAL_STACK_SIZE 16
#define configMAX_TASK_NAME_LEN 16
#define configTICK_RATE_HZ 1000
#define configUSE_MUTEXES 1
#define configUSE_COUNTING_SEMAPHORES 1
#define configUSE_TASK_NOTIFICATIONS 1
#define configUSE_TRACE_FACILITY 1
#define configUSE_TIMERS 0
#define configUSE_CO_ROUTINES 0
#define configSUPPORT_DYNAMIC_ALLOCATION 1

#define INCLUDE_vTaskDelay 1
#define INCLUDE_vTaskDelayUntil 1
#define INCLUDE_vTaskPrioritySet 1
#define INCLUDE_vTaskSuspend 1
#define INCLUDE_xTaskResumeFromISR 1
#define INCLUDE_xTaskGetCurrentTaskHandle 1

void against_failed( const char *file, int line );
#define configASSERT( fact ) \
    do \
    { \
        if( !( fact ) ) \
            against_failed( __FILE__, __LINE__ ); \
    } while( 0 )

/* The timer of the hooks counts the units of time of the driver. */
uint32_t against_time( void );
#define MUVEHYI_TIME() against_time()
#ifndef MUVEHYI_RECORDS
#define MUVEHYI_RECORDS 4096u
#endif

#include "muvehyi_trace.h"

#endif
