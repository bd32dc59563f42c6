/* A port of coroutines, for a FreeRTOS kernel of one core as a program of Linux. */
#ifndef PORTMACRO_H
#define PORTMACRO_H

#include <stdint.h>

typedef uintptr_t StackType_t;
typedef long BaseType_t;
typedef unsigned long UBaseType_t;
typedef uint32_t TickType_t;

#define portCHAR char
#define portFLOAT float
#define portDOUBLE double
#define portLONG long
#define portSHORT short
#define portSTACK_TYPE uintptr_t
#define portBASE_TYPE long
#define portPOINTER_SIZE_TYPE uintptr_t

#define portMAX_DELAY ( ( TickType_t ) 0xFFFFFFFFUL )
#define portTICK_TYPE_IS_ATOMIC 1
#define portSTACK_GROWTH ( -1 )
#define portTICK_PERIOD_MS ( ( TickType_t ) 1 )
#define portBYTE_ALIGNMENT 16

/* A yield switches at once, and one in a critical section at the end of that. There is one interrupt at a time, between two calls, so
 * none has to be masked. */
void vPortYield( void );
void vPortEnterCritical( void );
void vPortExitCritical( void );

#define portYIELD() vPortYield()
#define portYIELD_FROM_ISR( woken ) \
    do \
    { \
        if( ( woken ) != pdFALSE ) \
            vPortYield(); \
    } while( 0 )
#define portENTER_CRITICAL() vPortEnterCritical()
#define portEXIT_CRITICAL() vPortExitCritical()
#define portDISABLE_INTERRUPTS()
#define portENABLE_INTERRUPTS()
#define portSET_INTERRUPT_MASK_FROM_ISR() 0
#define portCLEAR_INTERRUPT_MASK_FROM_ISR( mask ) ( void ) ( mask )

#define portTASK_FUNCTION_PROTO( function, parameters ) void function( void *parameters )
#define portTASK_FUNCTION( function, parameters ) void function( void *parameters )

#endif
