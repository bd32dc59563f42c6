/* Functions with the names and the trace macros of those of V11's tasks.c, and nothing else in them. */
#define MPU_WRAPPERS_INCLUDED_FROM_API_FILE
#include "FreeRTOS.h"
#include "task.h"
#undef MPU_WRAPPERS_INCLUDED_FROM_API_FILE
#define taskNOT_WAITING_NOTIFICATION ( ( uint8_t ) 0 )
#define taskWAITING_NOTIFICATION ( ( uint8_t ) 1 )
#define taskNOTIFICATION_RECEIVED ( ( uint8_t ) 2 )
typedef struct tskTaskControlBlock
{
    char pcTaskName[ configMAX_TASK_NAME_LEN ];
    UBaseType_t uxTCBNumber;
    UBaseType_t uxTaskNumber;
    volatile uint32_t ulNotifiedValue[ configTASK_NOTIFICATION_ARRAY_ENTRIES ];
    volatile uint8_t ucNotifyState[ configTASK_NOTIFICATION_ARRAY_ENTRIES ];
} tskTCB;
typedef tskTCB TCB_t;
#if configNUMBER_OF_CORES == 1
TCB_t *volatile pxCurrentTCB;
TaskHandle_t xTaskGetCurrentTaskHandle( void ) { return pxCurrentTCB; }
#else
TCB_t *volatile pxCurrentTCBs[ configNUMBER_OF_CORES ];
#define pxCurrentTCB xTaskGetCurrentTaskHandle()
TaskHandle_t xTaskGetCurrentTaskHandle( void ) { return pxCurrentTCBs[ portGET_CORE_ID() ]; }
#endif
#define prvGetTCBFromHandle( pxHandle ) ( ( ( pxHandle ) == NULL ) ? pxCurrentTCB : ( pxHandle ) )
static volatile TickType_t xTickCount;
static volatile UBaseType_t uxSchedulerSuspended;
void prvAddNewTaskToReadyList( TCB_t *pxNewTCB );
void prvAddNewTaskToReadyList( TCB_t *pxNewTCB ) { traceTASK_CREATE( pxNewTCB ); }
void vTaskStartScheduler( void );
void vTaskStartScheduler( void ) { traceTASK_SWITCHED_IN(); }
void vTaskSwitchContext( BaseType_t xCoreID );
TCB_t *next_task; /* the one that a switch takes */
void vTaskSwitchContext( BaseType_t xCoreID )
{
    traceTASK_SWITCHED_OUT();
#if configNUMBER_OF_CORES == 1
    ( void ) xCoreID;
    pxCurrentTCB = next_task;
#else
    pxCurrentTCBs[ xCoreID ] = next_task;
#endif
    traceTASK_SWITCHED_IN();
}
BaseType_t xTaskIncrementTick( void );
BaseType_t xTaskIncrementTick( void ) { traceTASK_INCREMENT_TICK( xTickCount ); return pdFALSE; }
void vTaskDelay( const TickType_t xTicksToDelay )
{
    traceENTER_vTaskDelay( xTicksToDelay );
    if( xTicksToDelay > 0 )
        traceTASK_DELAY();
}
BaseType_t xTaskDelayUntil( TickType_t * const pxPreviousWakeTime, const TickType_t xTimeIncrement )
{
    traceENTER_xTaskDelayUntil( pxPreviousWakeTime, xTimeIncrement );
    const TickType_t xTimeToWake = *pxPreviousWakeTime + xTimeIncrement;
    const BaseType_t xShouldDelay = *pxPreviousWakeTime <= xTickCount && xTimeToWake > xTickCount;
    *pxPreviousWakeTime = xTimeToWake;
    if( xShouldDelay )
        traceTASK_DELAY_UNTIL( xTimeToWake );
    return xShouldDelay;
}
void vTaskPlaceOnEventListRestricted( TickType_t xTicksToWait );
void vTaskPlaceOnEventListRestricted( TickType_t xTicksToWait ) { traceTASK_DELAY_UNTIL( ( xTickCount + xTicksToWait ) ); }
void vTaskPrioritySet( TaskHandle_t xTask, UBaseType_t uxNewPriority );
void vTaskPrioritySet( TaskHandle_t xTask, UBaseType_t uxNewPriority )
{
    TCB_t *pxTCB = prvGetTCBFromHandle( xTask );
    traceTASK_PRIORITY_SET( pxTCB, uxNewPriority );
}
void vTaskCoreAffinitySet( const TaskHandle_t xTask, UBaseType_t uxCoreAffinityMask );
void vTaskCoreAffinitySet( const TaskHandle_t xTask, UBaseType_t uxCoreAffinityMask )
{
    traceENTER_vTaskCoreAffinitySet( xTask, uxCoreAffinityMask );
}
void vTaskPreemptionDisable( const TaskHandle_t xTask );
void vTaskPreemptionDisable( const TaskHandle_t xTask ) { traceENTER_vTaskPreemptionDisable( xTask ); }
void vTaskPreemptionEnable( const TaskHandle_t xTask );
void vTaskPreemptionEnable( const TaskHandle_t xTask ) { traceENTER_vTaskPreemptionEnable( xTask ); }
void vTaskSuspend( TaskHandle_t xTaskToSuspend );
void vTaskSuspend( TaskHandle_t xTaskToSuspend )
{
    TCB_t *pxTCB = prvGetTCBFromHandle( xTaskToSuspend );
    traceTASK_SUSPEND( pxTCB );
}
void vTaskResume( TaskHandle_t xTaskToResume );
void vTaskResume( TaskHandle_t xTaskToResume )
{
    TCB_t *const pxTCB = xTaskToResume;
    traceTASK_RESUME( pxTCB );
}
BaseType_t xTaskResumeFromISR( TaskHandle_t xTaskToResume );
BaseType_t xTaskResumeFromISR( TaskHandle_t xTaskToResume )
{
    BaseType_t xYieldRequired = pdFALSE;
    TCB_t *const pxTCB = xTaskToResume;
    traceTASK_RESUME_FROM_ISR( pxTCB );
    traceRETURN_xTaskResumeFromISR( xYieldRequired );
    return xYieldRequired;
}
BaseType_t xTaskGenericNotify( TaskHandle_t xTaskToNotify, UBaseType_t uxIndexToNotify, uint32_t ulValue, eNotifyAction eAction );
BaseType_t xTaskGenericNotify( TaskHandle_t xTaskToNotify, UBaseType_t uxIndexToNotify, uint32_t ulValue, eNotifyAction eAction )
{
    TCB_t *pxTCB = xTaskToNotify;
    BaseType_t xReturn = pdPASS;
    traceTASK_NOTIFY( uxIndexToNotify );
    return xReturn;
}
BaseType_t xTaskGenericNotifyFromISR( TaskHandle_t xTaskToNotify, UBaseType_t uxIndexToNotify, uint32_t ulValue,
                                      eNotifyAction eAction, BaseType_t *pxHigherPriorityTaskWoken );
BaseType_t xTaskGenericNotifyFromISR( TaskHandle_t xTaskToNotify, UBaseType_t uxIndexToNotify, uint32_t ulValue,
                                      eNotifyAction eAction, BaseType_t *pxHigherPriorityTaskWoken )
{
    TCB_t *pxTCB = xTaskToNotify;
    BaseType_t xReturn = pdPASS;
    traceTASK_NOTIFY_FROM_ISR( uxIndexToNotify );
    traceRETURN_xTaskGenericNotifyFromISR( xReturn );
    return xReturn;
}
void vTaskGenericNotifyGiveFromISR( TaskHandle_t xTaskToNotify, UBaseType_t uxIndexToNotify, BaseType_t *pxHigherPriorityTaskWoken );
void vTaskGenericNotifyGiveFromISR( TaskHandle_t xTaskToNotify, UBaseType_t uxIndexToNotify, BaseType_t *pxHigherPriorityTaskWoken )
{
    TCB_t *pxTCB = xTaskToNotify;
    traceTASK_NOTIFY_GIVE_FROM_ISR( uxIndexToNotify );
    traceRETURN_vTaskGenericNotifyGiveFromISR();
}
BaseType_t xTaskGenericNotifyWait( UBaseType_t uxIndexToWaitOn, uint32_t ulBitsToClearOnEntry, uint32_t ulBitsToClearOnExit,
                                   TickType_t xTicksToWait );
BaseType_t xTaskGenericNotifyWait( UBaseType_t uxIndexToWaitOn, uint32_t ulBitsToClearOnEntry, uint32_t ulBitsToClearOnExit,
                                   TickType_t xTicksToWait )
{
    traceTASK_NOTIFY_WAIT_BLOCK( uxIndexToWaitOn );
    traceTASK_NOTIFY_WAIT( uxIndexToWaitOn );
    return pdTRUE;
}
uint32_t ulTaskGenericNotifyTake( UBaseType_t uxIndexToWaitOn, BaseType_t xClearCountOnExit, TickType_t xTicksToWait );
uint32_t ulTaskGenericNotifyTake( UBaseType_t uxIndexToWaitOn, BaseType_t xClearCountOnExit, TickType_t xTicksToWait )
{
    traceTASK_NOTIFY_TAKE_BLOCK( uxIndexToWaitOn );
    traceTASK_NOTIFY_TAKE( uxIndexToWaitOn );
    return 0;
}
BaseType_t xTaskGenericNotifyStateClear( TaskHandle_t xTask, UBaseType_t uxIndexToClear )
{
    TCB_t *pxTCB = prvGetTCBFromHandle( xTask );
    BaseType_t xReturn = pdPASS;
    traceRETURN_xTaskGenericNotifyStateClear( xReturn );
    return xReturn;
}
uint32_t ulTaskGenericNotifyValueClear( TaskHandle_t xTask, UBaseType_t uxIndexToClear, uint32_t ulBitsToClear );
uint32_t ulTaskGenericNotifyValueClear( TaskHandle_t xTask, UBaseType_t uxIndexToClear, uint32_t ulBitsToClear )
{
    TCB_t *pxTCB = prvGetTCBFromHandle( xTask );
    uint32_t ulReturn = 0;
    traceRETURN_ulTaskGenericNotifyValueClear( ulReturn );
    return ulReturn;
}
