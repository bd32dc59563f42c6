/* A port of coroutines: each task has a context of its own, and a yield goes from one to the other. */

#include <stdio.h>
#include <stdlib.h>
#include <ucontext.h>

#include "FreeRTOS.h"
#include "task.h"

enum
{
    STACK_BYTES = 128 * 1024
};

struct coroutine
{
    ucontext_t context;
    TaskFunction_t code;
    void *parameters;
};

/* Of tasks.c. The first member of what it points to is what pxPortInitialiseStack() gave. */
extern struct coroutine **volatile pxCurrentTCB;

static unsigned nesting;
static int yield_is_due;

static void run_current( void )
{
    struct coroutine *self = *pxCurrentTCB;
    self->code( self->parameters );
    abort();
}

StackType_t *pxPortInitialiseStack( StackType_t *top, TaskFunction_t code, void *parameters )
{
    struct coroutine *made = calloc( 1, sizeof *made );
    char *stack = malloc( STACK_BYTES );
    ( void ) top;
    if( made == NULL || stack == NULL || getcontext( &made->context ) != 0 )
        abort();
    made->code = code;
    made->parameters = parameters;
    made->context.uc_stack.ss_sp = stack;
    made->context.uc_stack.ss_size = STACK_BYTES;
    makecontext( &made->context, run_current, 0 );
    return ( StackType_t * ) made;
}

void vPortYield( void )
{
    if( nesting > 0 )
    {
        yield_is_due = 1;
        return;
    }
    yield_is_due = 0;
    struct coroutine *left = *pxCurrentTCB;
    vTaskSwitchContext();
    struct coroutine *taken = *pxCurrentTCB;
    if( taken != left && swapcontext( &left->context, &taken->context ) != 0 )
        abort();
}

void vPortEnterCritical( void )
{
    nesting++;
}

void vPortExitCritical( void )
{
    configASSERT( nesting > 0 );
    nesting--;
    if( nesting == 0 && yield_is_due )
        vPortYield();
}

BaseType_t xPortStartScheduler( void )
{
    setcontext( &( *pxCurrentTCB )->context );
    return pdFALSE;
}

void vPortEndScheduler( void )
{
}

void *pvPortMalloc( size_t size )
{
    return malloc( size );
}

void vPortFree( void *memory )
{
    free( memory );
}
