/* SPDX-License-Identifier: MIT */
/* Hooks that record what a FreeRTOS kernel does, for a log that the bench reads. docs/TARGET.md says how to use them.
 *
 * Include this file at the end of FreeRTOSConfig.h, behind a definition of MUVEHYI_TIME(), and compile muvehyi_trace.c.
 * configUSE_TRACE_FACILITY has to be 1: the numbers of tasks and queues are the hooks' own. */
#ifndef MUVEHYI_TRACE_H
#define MUVEHYI_TRACE_H

#ifndef __ASSEMBLER__

#include <stdint.h>

/* How many records a ring has; a power of two. Each core has a ring. */
#ifndef MUVEHYI_RECORDS
#define MUVEHYI_RECORDS 1024u
#endif

/* How many tasks are known, idle tasks too; at most 255. */
#ifndef MUVEHYI_TASKS
#define MUVEHYI_TASKS 32u
#endif

/* How many bits the timer has. */
#ifndef MUVEHYI_TIME_BITS
#define MUVEHYI_TIME_BITS 32
#endif

#ifdef configNUMBER_OF_CORES
#define MUVEHYI_CORES configNUMBER_OF_CORES
#else
#define MUVEHYI_CORES 1
#endif

#if MUVEHYI_CORES > 1
#define MUVEHYI_TCB ( pxCurrentTCBs[ portGET_CORE_ID() ] )
#else
#define MUVEHYI_TCB ( pxCurrentTCB )
#endif

/* What a record is of. */
enum muvehyi_kind
{
    MUVEHYI_TICK = 1,
    MUVEHYI_SWITCH,
    MUVEHYI_YIELD,
    MUVEHYI_DELAY,
    MUVEHYI_DELAY_UNTIL,
    MUVEHYI_PRIORITY_SET,
    MUVEHYI_AFFINITY_SET,
    MUVEHYI_PREEMPT_OFF,
    MUVEHYI_PREEMPT_ON,
    MUVEHYI_NOTIFY,
    MUVEHYI_NOTIFY_WAIT,
    MUVEHYI_NOTIFY_WAITED,
    MUVEHYI_NOTIFY_TAKE,
    MUVEHYI_NOTIFY_TAKEN,
    MUVEHYI_STATE_CLEAR,
    MUVEHYI_VALUE_CLEAR,
    MUVEHYI_SEND,
    MUVEHYI_RECEIVE,
    MUVEHYI_SEND_WAIT,
    MUVEHYI_RECEIVE_WAIT,
    MUVEHYI_SUSPEND,
    MUVEHYI_RESUME,
    MUVEHYI_HOLD_OPEN,
    MUVEHYI_HOLD_CLOSE,
    MUVEHYI_ISR_NOTIFY,
    MUVEHYI_ISR_SEND,
    MUVEHYI_ISR_RECEIVE,
    MUVEHYI_ISR_RESUME,
    MUVEHYI_ISR_REPLY
};

/* The note of a record: an action of a notification or a flag, an index, and the reply. */
#define MUVEHYI_TRUE 0x80u
#define MUVEHYI_NOTE( low, index, reply ) ( ( unsigned ) ( low ) | ( unsigned ) ( index ) << 3 | ( ( reply ) ? MUVEHYI_TRUE : 0u ) )

#ifdef __cplusplus
extern "C" {
#endif

/* For the application. */

/* Begin to record: the last thing before vTaskStartScheduler(). */
void muvehyi_trace_start( void );

/* Print the records that are complete, in their order, and give how many lines that is. It may be called again and again, by one
 * task, by the idle hook or when all is over. */
unsigned muvehyi_trace_print( void ( *put )( char ) );

/* Whether a ring was full. Nothing is recorded then from there on. */
int muvehyi_trace_full( void );

/* Calls that a kernel does not show to a trace macro: to be made by these. On V11 vTaskDelay, xTaskDelayUntil and
 * xTaskNotifyStateClear are shown, and these are just they. */
void muvehyi_yield( void );
void muvehyi_hold_open( void );
void muvehyi_hold_close( void );
void muvehyi_delay( uint32_t ticks );
void muvehyi_delay_until( uint32_t *prev, uint32_t inc );
int muvehyi_state_clear( void *task );

/* For the macros below. */

uint8_t muvehyi_task( void *handle, const char *name );
uint8_t muvehyi_queue( void );
uint8_t muvehyi_mutex( void );
void muvehyi_out( unsigned task );
void muvehyi_in( unsigned task );
void muvehyi_write( unsigned kind, unsigned what, unsigned note, uint32_t value );
void muvehyi_write_long( unsigned kind, unsigned what, unsigned note, const uint32_t values[ 4 ] );

#ifdef __cplusplus
}
#endif

/* A record of up to four numbers, which takes two places. */
#define MUVEHYI_LONG( kind, what, note, one, two, three, four ) \
    muvehyi_write_long( ( kind ), ( what ), ( note ), \
                        ( const uint32_t[ 4 ] ) { ( one ), ( two ), ( three ), ( four ) } )

/* Names that not every function has in which a macro stands: where it has none, they are 0. */
#ifdef MPU_WRAPPERS_INCLUDED_FROM_API_FILE
enum
{
    xTimeIncrement = 0,
    xTicksToWait = 0
};
#endif

/* The notification of the current task at an index. Before V10.4 it is no array. */
#define MUVEHYI_VALUE( index ) ( ( ( const volatile uint32_t * ) &MUVEHYI_TCB->ulNotifiedValue )[ index ] )
#define MUVEHYI_STATE( index ) ( ( ( const volatile uint8_t * ) &MUVEHYI_TCB->ucNotifyState )[ index ] )
#define MUVEHYI_CAME( index ) \
    ( tskKERNEL_VERSION_MAJOR < 10 ? MUVEHYI_STATE( index ) != taskWAITING_NOTIFICATION \
                                   : MUVEHYI_STATE( index ) == taskNOTIFICATION_RECEIVED )

/* The index that a macro is given. Before V10.4 it is given none, and that is index 0. */
#define MUVEHYI_INDEX( ... ) ( __VA_ARGS__ + 0u )

/* Tasks and queues. */

#define traceTASK_CREATE( tcb ) ( tcb )->uxTaskNumber = muvehyi_task( ( tcb ), ( tcb )->pcTaskName )
#define traceQUEUE_CREATE( queue ) ( queue )->uxQueueNumber = muvehyi_queue()
#define traceCREATE_MUTEX( queue ) ( queue )->uxQueueNumber = muvehyi_mutex()

/* Switches and ticks. A tick that comes while the scheduler is suspended counts when it is made up for. */

#define traceTASK_SWITCHED_OUT() muvehyi_out( MUVEHYI_TCB->uxTaskNumber )
#define traceTASK_SWITCHED_IN() muvehyi_in( MUVEHYI_TCB->uxTaskNumber )
#define traceTASK_INCREMENT_TICK( count ) \
    do \
    { \
        if( uxSchedulerSuspended == 0u ) \
            muvehyi_write( MUVEHYI_TICK, 0u, 0u, 0u ); \
    } while( 0 )

/* Delays. The one of vTaskPlaceOnEventListRestricted() has no increment, and is of no call. */

#define traceTASK_DELAY() muvehyi_write( MUVEHYI_DELAY, 0u, 0u, xTicksToDelay )
#define traceTASK_DELAY_UNTIL( wake ) \
    do \
    { \
        if( xTimeIncrement != 0u ) \
            MUVEHYI_LONG( MUVEHYI_DELAY_UNTIL, 0u, MUVEHYI_TRUE, ( wake ) - xTimeIncrement, xTimeIncrement, 0u, 0u ); \
    } while( 0 )
#define traceENTER_vTaskDelay( ticks ) \
    do \
    { \
        if( ( ticks ) == 0u ) \
            muvehyi_write( MUVEHYI_DELAY, 0u, 0u, 0u ); \
    } while( 0 )
#define MUVEHYI_AHEAD( now, prev, wake ) \
    ( ( now ) < ( prev ) ? ( wake ) < ( prev ) && ( wake ) > ( now ) : ( wake ) < ( prev ) || ( wake ) > ( now ) )
#define traceENTER_xTaskDelayUntil( prev, inc ) \
    do \
    { \
        if( !MUVEHYI_AHEAD( xTickCount, *( prev ), ( TickType_t ) ( *( prev ) + ( inc ) ) ) ) \
            MUVEHYI_LONG( MUVEHYI_DELAY_UNTIL, 0u, 0u, *( prev ), ( inc ), 0u, 0u ); \
    } while( 0 )

/* Settings of tasks. */

#define traceTASK_PRIORITY_SET( tcb, priority ) muvehyi_write( MUVEHYI_PRIORITY_SET, ( tcb )->uxTaskNumber, 0u, ( priority ) )
#define traceENTER_vTaskCoreAffinitySet( task, mask ) \
    muvehyi_write( MUVEHYI_AFFINITY_SET, prvGetTCBFromHandle( task )->uxTaskNumber, 0u, ( uint32_t ) ( mask ) )
#define traceENTER_vTaskPreemptionDisable( task ) \
    muvehyi_write( MUVEHYI_PREEMPT_OFF, prvGetTCBFromHandle( task )->uxTaskNumber, 0u, 0u )
#define traceENTER_vTaskPreemptionEnable( task ) \
    muvehyi_write( MUVEHYI_PREEMPT_ON, prvGetTCBFromHandle( task )->uxTaskNumber, 0u, 0u )

/* Suspended tasks. A resume of a task that is not suspended is not shown, and does nothing. */

#define traceTASK_SUSPEND( tcb ) muvehyi_write( MUVEHYI_SUSPEND, ( tcb )->uxTaskNumber, 0u, 0u )
#define traceTASK_RESUME( tcb ) muvehyi_write( MUVEHYI_RESUME, ( tcb )->uxTaskNumber, 0u, 0u )
#define traceTASK_RESUME_FROM_ISR( tcb ) muvehyi_write( MUVEHYI_ISR_RESUME, ( tcb )->uxTaskNumber, MUVEHYI_TRUE, 0u )

/* Notifications. */

#define traceTASK_NOTIFY( ... ) \
    muvehyi_write( MUVEHYI_NOTIFY, pxTCB->uxTaskNumber, \
                   MUVEHYI_NOTE( eAction, MUVEHYI_INDEX( __VA_ARGS__ ), xReturn != pdFAIL ), ulValue )
#define traceTASK_NOTIFY_FROM_ISR( ... ) \
    muvehyi_write( MUVEHYI_ISR_NOTIFY, pxTCB->uxTaskNumber, \
                   MUVEHYI_NOTE( eAction, MUVEHYI_INDEX( __VA_ARGS__ ), xReturn != pdFAIL ), ulValue )
#define traceTASK_NOTIFY_GIVE_FROM_ISR( ... ) \
    muvehyi_write( MUVEHYI_ISR_NOTIFY, pxTCB->uxTaskNumber, \
                   MUVEHYI_NOTE( eIncrement, MUVEHYI_INDEX( __VA_ARGS__ ), 1 ), 0u )
#define traceTASK_NOTIFY_WAIT_BLOCK( ... ) \
    MUVEHYI_LONG( MUVEHYI_NOTIFY_WAIT, 0u, MUVEHYI_NOTE( 0u, MUVEHYI_INDEX( __VA_ARGS__ ), 0 ), \
                  ulBitsToClearOnEntry, ulBitsToClearOnExit, xTicksToWait, 0u )
#define traceTASK_NOTIFY_WAIT( ... ) \
    MUVEHYI_LONG( MUVEHYI_NOTIFY_WAITED, 0u, \
                  MUVEHYI_NOTE( 0u, MUVEHYI_INDEX( __VA_ARGS__ ), MUVEHYI_CAME( MUVEHYI_INDEX( __VA_ARGS__ ) ) ), \
                  ulBitsToClearOnEntry, ulBitsToClearOnExit, xTicksToWait, MUVEHYI_VALUE( MUVEHYI_INDEX( __VA_ARGS__ ) ) )
#define traceTASK_NOTIFY_TAKE_BLOCK( ... ) \
    muvehyi_write( MUVEHYI_NOTIFY_TAKE, 0u, \
                   MUVEHYI_NOTE( xClearCountOnExit != pdFALSE, MUVEHYI_INDEX( __VA_ARGS__ ), 0 ), xTicksToWait )
#define traceTASK_NOTIFY_TAKE( ... ) \
    MUVEHYI_LONG( MUVEHYI_NOTIFY_TAKEN, 0u, \
                  MUVEHYI_NOTE( xClearCountOnExit != pdFALSE, MUVEHYI_INDEX( __VA_ARGS__ ), 0 ), \
                  xTicksToWait, MUVEHYI_VALUE( MUVEHYI_INDEX( __VA_ARGS__ ) ), 0u, 0u )
#define traceRETURN_xTaskGenericNotifyStateClear( reply ) \
    muvehyi_write( MUVEHYI_STATE_CLEAR, pxTCB->uxTaskNumber, \
                   MUVEHYI_NOTE( 0u, uxIndexToClear, ( reply ) != pdFAIL ), 0u )
#define traceRETURN_ulTaskGenericNotifyValueClear( value ) \
    MUVEHYI_LONG( MUVEHYI_VALUE_CLEAR, pxTCB->uxTaskNumber, MUVEHYI_NOTE( 0u, uxIndexToClear, 0 ), ulBitsToClear, ( value ), 0u, 0u )

/* Mutexes, queues and semaphores. */

#define traceQUEUE_SEND( queue ) muvehyi_write( MUVEHYI_SEND, ( queue )->uxQueueNumber, MUVEHYI_TRUE, xTicksToWait )
#define traceQUEUE_SEND_FAILED( queue ) muvehyi_write( MUVEHYI_SEND, ( queue )->uxQueueNumber, 0u, xTicksToWait )
#define traceBLOCKING_ON_QUEUE_SEND( queue ) muvehyi_write( MUVEHYI_SEND_WAIT, ( queue )->uxQueueNumber, 0u, xTicksToWait )
#define traceQUEUE_RECEIVE( queue ) muvehyi_write( MUVEHYI_RECEIVE, ( queue )->uxQueueNumber, MUVEHYI_TRUE, xTicksToWait )
#define traceQUEUE_RECEIVE_FAILED( queue ) muvehyi_write( MUVEHYI_RECEIVE, ( queue )->uxQueueNumber, 0u, xTicksToWait )
#define traceBLOCKING_ON_QUEUE_RECEIVE( queue ) muvehyi_write( MUVEHYI_RECEIVE_WAIT, ( queue )->uxQueueNumber, 0u, xTicksToWait )
#define traceQUEUE_SEND_FROM_ISR( queue ) muvehyi_write( MUVEHYI_ISR_SEND, ( queue )->uxQueueNumber, MUVEHYI_TRUE, 0u )
#define traceQUEUE_SEND_FROM_ISR_FAILED( queue ) muvehyi_write( MUVEHYI_ISR_SEND, ( queue )->uxQueueNumber, 0u, 0u )
#define traceQUEUE_RECEIVE_FROM_ISR( queue ) muvehyi_write( MUVEHYI_ISR_RECEIVE, ( queue )->uxQueueNumber, MUVEHYI_TRUE, 0u )
#define traceQUEUE_RECEIVE_FROM_ISR_FAILED( queue ) muvehyi_write( MUVEHYI_ISR_RECEIVE, ( queue )->uxQueueNumber, 0u, 0u )

/* Whether the core is to switch, as V11 tells a handler at the end of a call of an interrupt. */

#define MUVEHYI_WOKEN() \
    do \
    { \
        if( pxHigherPriorityTaskWoken != NULL ) \
            muvehyi_write( MUVEHYI_ISR_REPLY, 0u, *pxHigherPriorityTaskWoken != pdFALSE ? MUVEHYI_TRUE : 0u, 0u ); \
    } while( 0 )
#define traceRETURN_xTaskGenericNotifyFromISR( reply ) MUVEHYI_WOKEN()
#define traceRETURN_vTaskGenericNotifyGiveFromISR() MUVEHYI_WOKEN()
#define traceRETURN_xQueueGenericSendFromISR( reply ) MUVEHYI_WOKEN()
#define traceRETURN_xQueueGiveFromISR( reply ) MUVEHYI_WOKEN()
#define traceRETURN_xQueueReceiveFromISR( reply ) MUVEHYI_WOKEN()
#define traceRETURN_xTaskResumeFromISR( reply ) \
    muvehyi_write( MUVEHYI_ISR_REPLY, 0u, ( reply ) != pdFALSE ? MUVEHYI_TRUE : 0u, 0u )

#endif /* __ASSEMBLER__ */

#endif /* MUVEHYI_TRACE_H */
