/* Functions with the trace macros of those of V11's queue.c, and nothing else in them. */
#define MPU_WRAPPERS_INCLUDED_FROM_API_FILE
#include "FreeRTOS.h"
#include "task.h"
#undef MPU_WRAPPERS_INCLUDED_FROM_API_FILE
typedef struct QueueDefinition
{
    UBaseType_t uxQueueNumber;
    uint8_t ucQueueType;
} Queue_t;
void prvInitialiseNewQueue( Queue_t *pxNewQueue );
void prvInitialiseNewQueue( Queue_t *pxNewQueue ) { traceQUEUE_CREATE( pxNewQueue ); }
void prvInitialiseMutex( Queue_t *pxNewQueue );
void prvInitialiseMutex( Queue_t *pxNewQueue ) { traceCREATE_MUTEX( pxNewQueue ); }
void prvNotifyQueueSetContainer( Queue_t *pxQueueSetContainer );
void prvNotifyQueueSetContainer( Queue_t *pxQueueSetContainer ) { traceQUEUE_SEND( pxQueueSetContainer ); }
void xQueueGenericSend( Queue_t *pxQueue, TickType_t xTicksToWait );
void xQueueGenericSend( Queue_t *pxQueue, TickType_t xTicksToWait )
{
    traceQUEUE_SEND( pxQueue );
    traceQUEUE_SEND_FAILED( pxQueue );
    traceBLOCKING_ON_QUEUE_SEND( pxQueue );
}
void xQueueReceive( Queue_t *pxQueue, TickType_t xTicksToWait );
void xQueueReceive( Queue_t *pxQueue, TickType_t xTicksToWait )
{
    traceQUEUE_RECEIVE( pxQueue );
    traceQUEUE_RECEIVE_FAILED( pxQueue );
    traceBLOCKING_ON_QUEUE_RECEIVE( pxQueue );
}
BaseType_t xQueueGenericSendFromISR( Queue_t *pxQueue, BaseType_t *const pxHigherPriorityTaskWoken );
BaseType_t xQueueGenericSendFromISR( Queue_t *pxQueue, BaseType_t *const pxHigherPriorityTaskWoken )
{
    BaseType_t xReturn = pdPASS;
    if( xReturn != pdFAIL )
        traceQUEUE_SEND_FROM_ISR( pxQueue );
    else
        traceQUEUE_SEND_FROM_ISR_FAILED( pxQueue );
    traceRETURN_xQueueGenericSendFromISR( xReturn );
    traceRETURN_xQueueGiveFromISR( xReturn );
    return xReturn;
}
BaseType_t xQueueReceiveFromISR( Queue_t *pxQueue, BaseType_t *const pxHigherPriorityTaskWoken );
BaseType_t xQueueReceiveFromISR( Queue_t *pxQueue, BaseType_t *const pxHigherPriorityTaskWoken )
{
    BaseType_t xReturn = pdFAIL;
    if( xReturn != pdFAIL )
        traceQUEUE_RECEIVE_FROM_ISR( pxQueue );
    else
        traceQUEUE_RECEIVE_FROM_ISR_FAILED( pxQueue );
    traceRETURN_xQueueReceiveFromISR( xReturn );
    return xReturn;
}
