/* Calls the functions of the declarations of V11 on two cores, and prints the log of the hooks; calls.log is what that has to be. There
 * is no kernel in this: it shows that the hooks record and print what the macros say. */
#include <stdio.h>

#include "tasks.c"

typedef struct QueueDefinition
{
    UBaseType_t uxQueueNumber;
    uint8_t ucQueueType;
} Queue_t;
void prvInitialiseNewQueue( Queue_t *pxNewQueue );
void prvInitialiseMutex( Queue_t *pxNewQueue );
void xQueueGenericSend( Queue_t *pxQueue, TickType_t xTicksToWait );
void xQueueReceive( Queue_t *pxQueue, TickType_t xTicksToWait );
BaseType_t xQueueGenericSendFromISR( Queue_t *pxQueue, BaseType_t *const pxHigherPriorityTaskWoken );
BaseType_t xQueueReceiveFromISR( Queue_t *pxQueue, BaseType_t *const pxHigherPriorityTaskWoken );

static BaseType_t core;
static uint32_t timer = 0xFFFFFFF0u; /* it wraps soon */
static TCB_t idle[ 2 ] = { { .pcTaskName = "IDLE0" }, { .pcTaskName = "IDLE1" } };
static TCB_t a = { .pcTaskName = "a" }, b = { .pcTaskName = "b" };
static Queue_t mutex, queue;

BaseType_t core_id( void ) { return core; }
uint32_t read_timer( void ) { return timer++; }
void vPortYield( void ) {}
void vTaskEnterCritical( void ) {}
void vTaskExitCritical( void ) {}
TickType_t xTaskGetTickCount( void ) { return xTickCount; }

static void put( char letter ) { putchar( letter ); }
static void print( void ) { muvehyi_trace_print( put ); }

static void take( BaseType_t on, TCB_t *task )
{
    core = on;
    next_task = task;
    vTaskSwitchContext( on );
}

/* What is before the start is of no log, and neither is the task with which a core starts. */
static void begin( void )
{
    TCB_t *const all[] = { &a, &b, &idle[ 0 ], &idle[ 1 ] };
    for( unsigned place = 0; place < 4; place++ )
        prvAddNewTaskToReadyList( all[ place ] );
    prvInitialiseNewQueue( &mutex );
    prvInitialiseMutex( &mutex );
    prvInitialiseNewQueue( &queue );
    xQueueGenericSend( &mutex, 0 );
    pxCurrentTCBs[ 0 ] = &idle[ 0 ];
    pxCurrentTCBs[ 1 ] = &idle[ 1 ];
    muvehyi_trace_start();
    vTaskStartScheduler();
    take( 0, &a );
    take( 1, &idle[ 1 ] );
    core = 0;
}

/* Core 0 has a, then b; a wakes on core 1. */
static void switches( void )
{
    BaseType_t woken = pdTRUE;
    xTaskIncrementTick();
    vTaskDelay( 0 );
    vTaskDelay( 3 );
    take( 0, &b );
    core = 1;
    xQueueGenericSendFromISR( &queue, &woken );
    take( 1, &a );
    xTaskGenericNotify( &b, 2, 7, eSetBits );
}

/* Calls of b on core 0. */
static void notifications( void )
{
    core = 0;
    xTaskGenericNotifyWait( 1, 0, 5, 9 );
    ulTaskGenericNotifyTake( 0, pdTRUE, 4 );
    xTaskGenericNotifyStateClear( &a, 2 );
    ulTaskGenericNotifyValueClear( NULL, 1, 3 );
    xTaskGenericNotifyFromISR( &a, 1, 9, eSetValueWithoutOverwrite, NULL );
    vTaskGenericNotifyGiveFromISR( &a, 0, NULL );
}

static void settings( void )
{
    TickType_t late = 10, ahead = 0;
    vTaskPrioritySet( &a, 3 );
    vTaskCoreAffinitySet( NULL, 1 );
    vTaskPreemptionDisable( &a );
    vTaskPreemptionEnable( &a );
    vTaskSuspend( &a );
    vTaskResume( &a );
    xTaskResumeFromISR( &a );
    xTaskDelayUntil( &late, 5 );
    xTaskDelayUntil( &ahead, 5 );
    vTaskPlaceOnEventListRestricted( 4 );
    take( 0, &b );
}

static void queues( void )
{
    xQueueReceive( &mutex, 2 );
    xQueueGenericSend( &mutex, 0 );
    xQueueReceive( &queue, 1 );
    xQueueReceive( &queue, 1 );
    xQueueReceiveFromISR( &queue, NULL );
}

static void own_calls( void )
{
    uint32_t prev = 20;
    muvehyi_yield();
    muvehyi_hold_open();
    muvehyi_hold_close();
    muvehyi_delay( 0 );
    muvehyi_delay_until( &prev, 1 );
    muvehyi_state_clear( &a );
}

/* A time that is a little before that of the other core; then a ring that is full, behind which nothing is printed. */
static void ends( void )
{
    timer -= 2;
    core = 1;
    xTaskIncrementTick();
    print();
    for( unsigned place = 0; place < MUVEHYI_RECORDS + 2u; place++ )
    {
        core = place == 1 ? 0 : 1;
        xTaskIncrementTick();
    }
    core = 0;
    muvehyi_yield();
    printf( "full %d\n", muvehyi_trace_full() );
}

int main( void )
{
    begin();
    switches();
    print();
    notifications();
    print();
    settings();
    print();
    queues();
    own_calls();
    print();
    ends();
    print();
    return 0;
}
