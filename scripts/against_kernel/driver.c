/* Runs a workload on a FreeRTOS kernel, and prints the log of the hooks. scripts/against_runs.py writes the workload, as numbers:
 *
 *     units, ticks, first time of the timer
 *     how many mutexes; how many queues, and of each its length, its messages, and 1 where it is a semaphore
 *     how many tasks, and of each its name, its priority and its program
 *     how many interrupts, and of each `at`, `every` or 0, its kind, and three numbers
 *
 * A program is a list: how many items, and of each its kind and what it has. Time goes on only where the task that runs works, or
 * where the idle task runs. An interrupt comes when time would go on. */

#include <stdio.h>
#include <stdlib.h>
#include <string.h>
#include <unistd.h>

#include "FreeRTOS.h"
#include "queue.h"
#include "semphr.h"
#include "task.h"

enum
{
    MOST = 32
};

enum kind
{
    WORK,
    CALL,
    REPEAT,
    FOREVER,
    BREAK
};

/* In the order of CALLS in against_runs.py. */
enum call
{
    YIELD,
    DELAY,
    DELAY_UNTIL,
    DELAY_UNTIL_PREV,
    PRIORITY_SET,
    NOTIFY,
    NOTIFY_WAIT,
    NOTIFY_TAKE,
    STATE_CLEAR,
    MUTEX_TAKE,
    MUTEX_GIVE,
    QUEUE_SEND,
    QUEUE_RECEIVE,
    SUSPEND,
    RESUME,
    HOLD_OPEN,
    HOLD_CLOSE,
    ISR_NOTIFY,
    ISR_SEND,
    ISR_RECEIVE,
    ISR_RESUME
};

struct list
{
    unsigned count;
    struct item *items;
};

struct item
{
    enum kind kind;
    unsigned count; /* of works, or of rounds */
    unsigned used;
    uint32_t *works;
    enum call call;
    uint32_t numbers[ 3 ];
    struct list then, other; /* the body of a loop is `then` */
};

struct program
{
    char name[ configMAX_TASK_NAME_LEN ];
    TaskHandle_t handle;
    uint32_t wake;
    struct list items;
};

struct interrupt
{
    uint64_t at, every;
    enum call call;
    uint32_t numbers[ 3 ];
};

static uint64_t now, units, last_tick, ticks_made;
static uint32_t first_time;
static SemaphoreHandle_t mutexes[ MOST ];
static QueueHandle_t queues[ MOST ];
static int is_semaphore[ MOST ];
static unsigned task_count, interrupt_count;
static struct program programs[ MOST ];
static struct interrupt interrupts[ MOST ];

void against_failed( const char *file, int line )
{
    fprintf( stderr, "%s:%d: an assertion failed\n", file, line );
    _exit( 4 );
}

uint32_t against_time( void )
{
    return first_time + ( uint32_t ) now;
}

/* Reading. */

static uint64_t read_number( void )
{
    unsigned long long number;
    if( scanf( "%llu", &number ) != 1 )
        against_failed( __FILE__, __LINE__ );
    return number;
}

static void read_numbers( uint32_t numbers[ 3 ] )
{
    for( unsigned place = 0; place < 3; place++ )
        numbers[ place ] = ( uint32_t ) read_number();
}

static struct list read_list( void );

static void read_item( struct item *item )
{
    item->kind = ( enum kind ) read_number();
    if( item->kind == WORK )
    {
        item->count = ( unsigned ) read_number();
        item->works = calloc( item->count, sizeof *item->works );
        for( unsigned place = 0; place < item->count; place++ )
            item->works[ place ] = ( uint32_t ) read_number();
    }
    else if( item->kind == CALL )
    {
        item->call = ( enum call ) read_number();
        read_numbers( item->numbers );
        item->then = read_list();
        item->other = read_list();
    }
    else if( item->kind != BREAK )
    {
        item->count = item->kind == REPEAT ? ( unsigned ) read_number() : 0;
        item->then = read_list();
    }
}

static struct list read_list( void )
{
    struct list list = { ( unsigned ) read_number(), NULL };
    list.items = calloc( list.count + 1u, sizeof *list.items );
    for( unsigned place = 0; place < list.count; place++ )
        read_item( &list.items[ place ] );
    return list;
}

/* Time. */

static void put( char letter )
{
    putchar( letter );
}

/* The end: all that is recorded is printed. */
static void end( void )
{
    muvehyi_trace_print( put );
    fflush( stdout );
    if( muvehyi_trace_full() )
        against_failed( __FILE__, __LINE__ );
    _exit( 0 );
}

static void interrupt_now( struct interrupt *interrupt )
{
    const uint32_t *numbers = interrupt->numbers;
    const unsigned which = numbers[ 0 ];
    BaseType_t woken = pdFALSE;
    uint32_t message = 0;
    interrupt->at = interrupt->every > 0 ? interrupt->at + interrupt->every : UINT64_MAX;
    switch( interrupt->call )
    {
        case ISR_NOTIFY:
            xTaskNotifyFromISR( programs[ which ].handle, numbers[ 2 ], ( eNotifyAction ) numbers[ 1 ], &woken );
            break;
        case ISR_SEND:
            if( is_semaphore[ which ] )
                xSemaphoreGiveFromISR( queues[ which ], &woken );
            else
                xQueueSendFromISR( queues[ which ], &message, &woken );
            break;
        case ISR_RECEIVE:
            xQueueReceiveFromISR( queues[ which ], &message, &woken );
            break;
        default:
            woken = xTaskResumeFromISR( programs[ which ].handle );
            break;
    }
    portYIELD_FROM_ISR( woken );
}

/* The interrupt that comes first; of those of one time the first one. */
static struct interrupt *next_interrupt( void )
{
    struct interrupt *next = NULL;
    for( unsigned place = 0; place < interrupt_count; place++ )
        if( next == NULL || interrupts[ place ].at < next->at )
            next = &interrupts[ place ];
    return next;
}

/* Time that is needed and may go on now: none where an interrupt came first, which may have let another task run. */
static uint64_t go_on( uint64_t wanted )
{
    struct interrupt *next = next_interrupt();
    muvehyi_trace_print( put );
    if( ticks_made == last_tick )
        end();
    if( next != NULL && next->at == now )
    {
        interrupt_now( next );
        return 0;
    }
    uint64_t most = ( ticks_made + 1 ) * units - now;
    most = next != NULL && next->at - now < most ? next->at - now : most;
    const uint64_t gone = wanted < most ? wanted : most;
    now += gone;
    return gone;
}

static void tick_if_due( void )
{
    if( now == ( ticks_made + 1 ) * units )
    {
        ticks_made++;
        portYIELD_FROM_ISR( xTaskIncrementTick() );
    }
}

static void work( uint64_t wanted )
{
    while( wanted > 0 )
    {
        const uint64_t gone = go_on( wanted );
        wanted -= gone;
        if( gone > 0 )
            tick_if_due();
    }
}

void vApplicationIdleHook( void )
{
    if( go_on( UINT64_MAX ) > 0 )
        tick_if_due();
}

/* Calls. */

static int delay_until( struct program *self, uint32_t prev, uint32_t inc )
{
    const uint32_t tick = xTaskGetTickCount();
    self->wake = prev;
    const int is_ahead = MUVEHYI_AHEAD( tick, prev, prev + inc );
    muvehyi_delay_until( &self->wake, inc );
    return is_ahead;
}

static int call_queue( enum call call, unsigned which, uint32_t ticks )
{
    uint32_t message = 0;
    if( call == QUEUE_RECEIVE )
        return is_semaphore[ which ] ? xSemaphoreTake( queues[ which ], ticks ) : xQueueReceive( queues[ which ], &message, ticks );
    return xQueueGenericSend( queues[ which ], is_semaphore[ which ] ? NULL : &message, ticks, queueSEND_TO_BACK );
}

static int call_note( enum call call, const uint32_t numbers[ 3 ] )
{
    uint32_t value;
    switch( call )
    {
        case NOTIFY:
            return xTaskNotify( programs[ numbers[ 0 ] ].handle, numbers[ 2 ], ( eNotifyAction ) numbers[ 1 ] ) != pdFAIL;
        case NOTIFY_WAIT:
            return xTaskNotifyWait( numbers[ 0 ], numbers[ 1 ], &value, numbers[ 2 ] ) != pdFAIL;
        case NOTIFY_TAKE:
            return ulTaskNotifyTake( numbers[ 0 ] != 0 ? pdTRUE : pdFALSE, numbers[ 1 ] ) != 0;
        default:
            return muvehyi_state_clear( programs[ numbers[ 0 ] ].handle );
    }
}

/* Make a call, and tell whether it is answered otherwise than by false or 0. */
static int make_call( struct program *self, enum call call, const uint32_t numbers[ 3 ] )
{
    switch( call )
    {
        case YIELD: muvehyi_yield(); return 1;
        case DELAY: muvehyi_delay( numbers[ 0 ] ); return 1;
        case DELAY_UNTIL: return delay_until( self, self->wake, numbers[ 0 ] );
        case DELAY_UNTIL_PREV: return delay_until( self, numbers[ 1 ], numbers[ 0 ] );
        case PRIORITY_SET: vTaskPrioritySet( programs[ numbers[ 0 ] ].handle, numbers[ 1 ] ); return 1;
        case MUTEX_TAKE: return xSemaphoreTake( mutexes[ numbers[ 0 ] ], numbers[ 1 ] ) != pdFAIL;
        case MUTEX_GIVE: return xSemaphoreGive( mutexes[ numbers[ 0 ] ] ) != pdFAIL;
        case QUEUE_SEND:
        case QUEUE_RECEIVE: return call_queue( call, numbers[ 0 ], numbers[ 1 ] ) == pdPASS;
        case SUSPEND: vTaskSuspend( programs[ numbers[ 0 ] ].handle ); return 1;
        case RESUME: vTaskResume( programs[ numbers[ 0 ] ].handle ); return 1;
        case HOLD_OPEN: muvehyi_hold_open(); return 1;
        case HOLD_CLOSE: muvehyi_hold_close(); return 1;
        default: return call_note( call, numbers );
    }
}

/* Programs. */

static int run_list( struct program *self, struct list *list );

static void run_loop( struct program *self, struct item *loop )
{
    unsigned rounds = 0;
    while( loop->kind == FOREVER || rounds < loop->count )
    {
        if( run_list( self, &loop->then ) )
            return;
        rounds++;
    }
}

/* Do what an item says, and tell whether a `break` ends the loop around it. */
static int run_item( struct program *self, struct item *item )
{
    if( item->kind == BREAK )
        return 1;
    if( item->kind == WORK )
        work( item->works[ item->used++ % item->count ] );
    else if( item->kind == CALL )
        return run_list( self, make_call( self, item->call, item->numbers ) ? &item->then : &item->other );
    else
        run_loop( self, item );
    return 0;
}

static int run_list( struct program *self, struct list *list )
{
    for( unsigned place = 0; place < list->count; place++ )
        if( run_item( self, &list->items[ place ] ) )
            return 1;
    return 0;
}

/* A task: behind its program it suspends itself, again and again. */
static void run_task( void *parameters )
{
    struct program *self = parameters;
    run_list( self, &self->items );
    for( ;; )
        vTaskSuspend( NULL );
}

/* The start. */

static void create_queue( unsigned which )
{
    const UBaseType_t length = read_number(), messages = read_number();
    const uint32_t message = 0;
    is_semaphore[ which ] = ( int ) read_number();
    queues[ which ] = is_semaphore[ which ] ? xSemaphoreCreateCounting( length, messages ) : xQueueCreate( length, sizeof message );
    for( UBaseType_t sent = 0; !is_semaphore[ which ] && sent < messages; sent++ )
        xQueueSend( queues[ which ], &message, 0 );
}

static void create_task( struct program *program )
{
    if( scanf( "%15s", program->name ) != 1 )
        against_failed( __FILE__, __LINE__ );
    const UBaseType_t priority = read_number();
    program->items = read_list();
    xTaskCreate( run_task, program->name, configMINIMAL_STACK_SIZE, program, priority, &program->handle );
}

static void read_interrupt( struct interrupt *interrupt )
{
    interrupt->at = read_number();
    interrupt->every = read_number();
    interrupt->call = ( enum call ) read_number();
    read_numbers( interrupt->numbers );
}

int main( void )
{
    units = read_number();
    last_tick = read_number();
    first_time = ( uint32_t ) read_number();
    const unsigned mutex_count = ( unsigned ) read_number();
    for( unsigned place = 0; place < mutex_count; place++ )
        mutexes[ place ] = xSemaphoreCreateMutex();
    const unsigned queue_count = ( unsigned ) read_number();
    for( unsigned place = 0; place < queue_count; place++ )
        create_queue( place );
    task_count = ( unsigned ) read_number();
    for( unsigned place = 0; place < task_count; place++ )
        create_task( &programs[ place ] );
    interrupt_count = ( unsigned ) read_number();
    for( unsigned place = 0; place < interrupt_count; place++ )
        read_interrupt( &interrupts[ place ] );
    muvehyi_trace_start();
    vTaskStartScheduler();
    return 5;
}
