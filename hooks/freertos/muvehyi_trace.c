/* SPDX-License-Identifier: MIT */
/* Records of what a FreeRTOS kernel does, and the log that they are printed as. docs/TARGET.md says how to use them. */

#include <stddef.h>

#include "FreeRTOS.h"
#include "task.h"

#ifndef MUVEHYI_TRACE_H
#error "include muvehyi_trace.h at the end of FreeRTOSConfig.h"
#endif
#ifndef MUVEHYI_TIME
#error "define MUVEHYI_TIME() in FreeRTOSConfig.h: it reads a free-running timer"
#endif
#if configUSE_TRACE_FACILITY != 1
#error "configUSE_TRACE_FACILITY has to be 1: tasks and queues have their numbers by it"
#endif

/* Interrupts of this core are masked while a record is written, for some tens of instructions. */
#ifndef MUVEHYI_MASK
#define MUVEHYI_MASK() portSET_INTERRUPT_MASK_FROM_ISR()
#define MUVEHYI_UNMASK( mask ) portCLEAR_INTERRUPT_MASK_FROM_ISR( mask )
#endif

#if MUVEHYI_CORES > 1
#define MUVEHYI_CORE() ( ( unsigned ) portGET_CORE_ID() )
#ifndef MUVEHYI_NEXT
#define MUVEHYI_NEXT( count ) __atomic_fetch_add( &( count ), 1u, __ATOMIC_RELAXED )
#endif
#else
#define MUVEHYI_CORE() 0u
#ifndef MUVEHYI_NEXT
#define MUVEHYI_NEXT( count ) ( ( count )++ )
#endif
#endif

#ifdef configTASK_NOTIFICATION_ARRAY_ENTRIES
#define NOTES configTASK_NOTIFICATION_ARRAY_ENTRIES
#else
#define NOTES 1
#endif

#define LAST_PLACE ( MUVEHYI_RECORDS - 1u )
#define IS_MUTEX 0x80u

/* A record of 16 bytes. One that is long has its other numbers in the next place. */
struct record
{
    uint32_t time;
    uint32_t order;
    uint8_t kind;
    uint8_t what;
    uint8_t note;
    uint8_t is_long;
    uint32_t value;
};

/* The records of a core. What is from `tail` on and before `head` is not printed yet. */
struct ring
{
    uint32_t head;
    uint32_t tail;
    uint8_t first; /* the task that the core had when it first switched, or 0 */
    struct record records[ MUVEHYI_RECORDS ];
};

struct known_task
{
    void *handle;
    const char *name;
};

static struct ring rings[ MUVEHYI_CORES ];
static struct known_task tasks[ MUVEHYI_TASKS ];
static unsigned task_count;
static uint8_t queue_count, mutex_count;
static volatile uint8_t is_on, is_full;
static uint32_t next_order;

/* Numbers. A task and a queue have theirs from the order in which they are created; task 0 is none. */

uint8_t muvehyi_task( void *handle, const char *name )
{
    if( task_count == MUVEHYI_TASKS )
    {
        is_full = 1;
        return 0;
    }
    tasks[ task_count ].handle = handle;
    tasks[ task_count ].name = name;
    return ( uint8_t ) ++task_count;
}

uint8_t muvehyi_queue( void )
{
    return queue_count++;
}

/* A mutex is created as a queue first. */
uint8_t muvehyi_mutex( void )
{
    queue_count--;
    return ( uint8_t ) ( mutex_count++ | IS_MUTEX );
}

static unsigned number_of( const void *handle )
{
    unsigned place = 0;
    while( place < task_count && tasks[ place ].handle != handle )
        place++;
    return place < task_count ? place + 1 : 0;
}

/* Writing. */

void muvehyi_trace_start( void )
{
    is_on = 1;
}

int muvehyi_trace_full( void )
{
    return is_full;
}

/* The next place of a ring with so many free ones. Where there are not, nothing is recorded from here on; the order that the record
 * would have had is used up, so nothing is printed behind it either. */
static struct record *next_place( struct ring *ring, uint32_t places )
{
    const uint32_t tail = __atomic_load_n( &ring->tail, __ATOMIC_ACQUIRE );
    if( MUVEHYI_RECORDS - ( ring->head - tail ) < places )
    {
        is_full = 1;
        ( void ) MUVEHYI_NEXT( next_order );
        return NULL;
    }
    return &ring->records[ ring->head & LAST_PLACE ];
}

static void fill( struct record *place, unsigned kind, unsigned what, unsigned note, uint32_t value )
{
    place->order = MUVEHYI_NEXT( next_order );
    place->time = ( uint32_t ) MUVEHYI_TIME();
    place->kind = ( uint8_t ) kind;
    place->what = ( uint8_t ) what;
    place->note = ( uint8_t ) note;
    place->value = value;
}

static void publish( struct ring *ring, uint32_t places )
{
    __atomic_store_n( &ring->head, ring->head + places, __ATOMIC_RELEASE );
}

void muvehyi_write( unsigned kind, unsigned what, unsigned note, uint32_t value )
{
    if( !is_on || is_full )
        return;
    const UBaseType_t mask = ( UBaseType_t ) MUVEHYI_MASK();
    struct ring *ring = &rings[ MUVEHYI_CORE() ];
    struct record *place = next_place( ring, 1 );
    if( place != NULL )
    {
        fill( place, kind, what, note, value );
        place->is_long = 0;
        publish( ring, 1 );
    }
    MUVEHYI_UNMASK( mask );
    ( void ) mask;
}

void muvehyi_write_long( unsigned kind, unsigned what, unsigned note, const uint32_t values[ 4 ] )
{
    if( !is_on || is_full )
        return;
    const UBaseType_t mask = ( UBaseType_t ) MUVEHYI_MASK();
    struct ring *ring = &rings[ MUVEHYI_CORE() ];
    struct record *place = next_place( ring, 2 );
    if( place != NULL )
    {
        struct record *rest = &ring->records[ ( ring->head + 1u ) & LAST_PLACE ];
        fill( place, kind, what, note, values[ 0 ] );
        place->is_long = 1;
        rest->time = values[ 1 ];
        rest->order = values[ 2 ];
        rest->value = values[ 3 ];
        publish( ring, 2 );
    }
    MUVEHYI_UNMASK( mask );
    ( void ) mask;
}

/* A core leaves a task. The first one is kept, since no record says that the core took it. */
void muvehyi_out( unsigned task )
{
    struct ring *ring = &rings[ MUVEHYI_CORE() ];
    if( is_on && ring->first == 0 )
        ring->first = ( uint8_t ) task;
}

/* A core takes a task. V10 and V11 say so too before the first one runs; that is no switch. */
void muvehyi_in( unsigned task )
{
    if( rings[ MUVEHYI_CORE() ].first != 0 )
        muvehyi_write( MUVEHYI_SWITCH, task, 0, 0 );
}

/* Calls that the kernel does not show. */

void muvehyi_yield( void )
{
    muvehyi_write( MUVEHYI_YIELD, 0, 0, 0 );
    taskYIELD();
}

void muvehyi_hold_open( void )
{
    taskENTER_CRITICAL();
    muvehyi_write( MUVEHYI_HOLD_OPEN, 0, 0, 0 );
}

void muvehyi_hold_close( void )
{
    muvehyi_write( MUVEHYI_HOLD_CLOSE, 0, 0, 0 );
    taskEXIT_CRITICAL();
}

#if INCLUDE_vTaskDelay == 1
void muvehyi_delay( uint32_t ticks )
{
#if tskKERNEL_VERSION_MAJOR < 11
    if( ticks == 0 )
        muvehyi_write( MUVEHYI_DELAY, 0, 0, 0 );
#endif
    vTaskDelay( ticks );
}
#endif

#if defined( INCLUDE_vTaskDelayUntil ) && INCLUDE_vTaskDelayUntil == 1 || \
    defined( INCLUDE_xTaskDelayUntil ) && INCLUDE_xTaskDelayUntil == 1
void muvehyi_delay_until( uint32_t *prev, uint32_t inc )
{
#if tskKERNEL_VERSION_MAJOR < 11
    const uint32_t now = xTaskGetTickCount();
    if( !MUVEHYI_AHEAD( now, *prev, *prev + inc ) )
        MUVEHYI_LONG( MUVEHYI_DELAY_UNTIL, 0, 0, *prev, inc, 0, 0 );
#endif
    TickType_t wake = *prev;
    vTaskDelayUntil( &wake, inc );
    *prev = wake;
}
#endif

int muvehyi_state_clear( void *task )
{
    const BaseType_t reply = xTaskNotifyStateClear( task );
#if tskKERNEL_VERSION_MAJOR < 11
    const unsigned number = number_of( task == NULL ? ( void * ) xTaskGetCurrentTaskHandle() : task );
    muvehyi_write( MUVEHYI_STATE_CLEAR, number, MUVEHYI_NOTE( 0, 0, reply != pdFAIL ), 0 );
#else
    ( void ) number_of;
#endif
    return reply != pdFAIL;
}

/* Printing. */

/* What a task has not returned from: nothing, a delay, or a call whose end is recorded. */
enum unfinished
{
    NOTHING,
    DELAY,
    WAIT
};

static void ( *put_char )( char );
static uint32_t printed_order, printed_time;
static uint8_t has_printed;
static uint8_t current[ MUVEHYI_CORES ];
static uint8_t unfinished[ MUVEHYI_TASKS + 1 ];

static void put_text( const char *text )
{
    while( *text != '\0' )
        put_char( *text++ );
}

static void put_number( uint32_t number )
{
    char digits[ 10 ];
    unsigned count = 0;
    do
    {
        digits[ count++ ] = ( char ) ( '0' + number % 10u );
        number /= 10u;
    } while( number > 0 );
    while( count > 0 )
        put_char( digits[ --count ] );
}

static int is_idle( const char *name )
{
    return name[ 0 ] == 'I' && name[ 1 ] == 'D' && name[ 2 ] == 'L' && name[ 3 ] == 'E';
}

/* The idle task of a kernel of one core is IDLE1: a session has two cores at least, and the other one has IDLE0 for ever. */
static void put_task( unsigned task )
{
    const char *name = task > 0 && task <= task_count ? tasks[ task - 1 ].name : "?";
    put_text( MUVEHYI_CORES == 1 && is_idle( name ) ? "IDLE1" : name );
}

static void put_action( const struct record *record )
{
    static const char *const words[] = { "none", "set_bits", "increment", "set", "set_new" };
    const unsigned action = record->note & 7u;
    put_text( " action " );
    put_text( action < 5u ? words[ action ] : "?" );
    if( action != 0 && action != 2 )
    {
        put_text( " value " );
        put_number( record->value );
    }
}

static void put_index( const struct record *record )
{
    if( NOTES > 1 )
    {
        put_text( " index " );
        put_number( record->note >> 3 & 15u );
    }
}

static void put_flag( int flag )
{
    put_text( flag ? "true" : "false" );
}

/* A record with its core, and what a long one has beside. */
struct line
{
    unsigned core;
    const struct record *record;
    const struct record *rest;
};

/* A part of a line: what stands for a letter. */
static void put_part( const struct line *line, char letter )
{
    const struct record *record = line->record;
    switch( letter )
    {
        case 'c': put_number( line->core ); break;
        case 'b': put_task( current[ line->core ] ); break;
        case 't': put_task( record->what ); break;
        case 'q': put_number( record->what & ~IS_MUTEX ); break;
        case 'v': put_number( record->value ); break;
        case '2': put_number( line->rest->time ); break;
        case '3': put_number( line->rest->order ); break;
        case '4': put_number( line->rest->value ); break;
        case 'w': put_number( record->value + line->rest->time ); break;
        case 'a': put_action( record ); break;
        case 'i': put_index( record ); break;
        case 'f': put_flag( record->note & 1u ); break;
        case 'r': put_flag( record->note & MUVEHYI_TRUE ); break;
        default: break;
    }
}

/* A line or a part of it, with `%` before each letter. */
static void put_words( const struct line *line, const char *words )
{
    for( ; *words != '\0'; words++ )
    {
        if( *words == '%' )
            put_part( line, *++words );
        else
            put_char( *words );
    }
}

/* The words of the records that always have the same. */
static const char *fixed_words( unsigned kind )
{
    switch( kind )
    {
        case MUVEHYI_TICK: return "tick";
        case MUVEHYI_SWITCH: return "switch core %c: %t";
        case MUVEHYI_YIELD: return "yield core %c by %b: done";
        case MUVEHYI_DELAY_UNTIL: return "delay_until core %c by %b prev %v inc %2: until %r %w";
        case MUVEHYI_PRIORITY_SET: return "priority_set core %c by %b to %t priority %v: done";
        case MUVEHYI_AFFINITY_SET: return "affinity_set core %c by %b to %t mask %v: done";
        case MUVEHYI_PREEMPT_OFF: return "preempt_off core %c by %b to %t: done";
        case MUVEHYI_PREEMPT_ON: return "preempt_on core %c by %b to %t: done";
        case MUVEHYI_NOTIFY: return "notify core %c by %b to %t%a%i: %r";
        case MUVEHYI_NOTIFY_WAIT: return "notify_wait core %c by %b entry %v exit %2 ticks %3%i: blocked";
        case MUVEHYI_NOTIFY_TAKE: return "notify_take core %c by %b clear %f ticks %v%i: blocked";
        case MUVEHYI_STATE_CLEAR: return "state_clear core %c by %b to %t%i: %r";
        case MUVEHYI_VALUE_CLEAR: return "value_clear core %c by %b to %t bits %v%i: value %2";
        case MUVEHYI_SUSPEND: return "suspend core %c by %b to %t: done";
        case MUVEHYI_RESUME: return "resume core %c by %b to %t: done";
        case MUVEHYI_HOLD_OPEN: return "hold_open core %c by %b: done";
        case MUVEHYI_HOLD_CLOSE: return "hold_close core %c by %b: done";
        case MUVEHYI_ISR_NOTIFY: return "isr_notify core %c to %t%a%i";
        case MUVEHYI_ISR_SEND: return "isr_send core %c queue %q";
        case MUVEHYI_ISR_RECEIVE: return "isr_receive core %c queue %q";
        case MUVEHYI_ISR_RESUME: return "isr_resume core %c to %t";
        default: return "?";
    }
}

/* A call at a queue or a mutex, or the end of one. */
static const char *queue_words( const struct record *record, int is_finish )
{
    const int is_send = record->kind == MUVEHYI_SEND || record->kind == MUVEHYI_SEND_WAIT;
    if( is_finish )
        return "finish core %c by %b";
    if( record->what & IS_MUTEX )
        return is_send ? "mutex_give core %c by %b mutex %q" : "mutex_take core %c by %b mutex %q ticks %v";
    return is_send ? "queue_send core %c by %b queue %q ticks %v" : "queue_receive core %c by %b queue %q ticks %v";
}

/* The words of a record; they change what the task on the core has not returned from. */
static void put_record( const struct line *line, uint8_t *owed )
{
    const struct record *record = line->record;
    const int is_finish = *owed == WAIT;
    switch( record->kind )
    {
        case MUVEHYI_DELAY:
            put_words( line, record->value > 0 ? "delay core %c by %b ticks %v: blocked" : "delay core %c by %b ticks %v: done" );
            *owed = record->value > 0 ? DELAY : NOTHING;
            break;
        case MUVEHYI_NOTIFY_WAITED:
            put_words( line, is_finish ? "finish core %c by %b" : "notify_wait core %c by %b entry %v exit %2 ticks %3%i" );
            put_words( line, ": waited %r %4" );
            *owed = NOTHING;
            break;
        case MUVEHYI_NOTIFY_TAKEN:
            put_words( line, is_finish ? "finish core %c by %b" : "notify_take core %c by %b clear %f ticks %v%i" );
            put_words( line, ": value %2" );
            *owed = NOTHING;
            break;
        case MUVEHYI_SEND:
        case MUVEHYI_RECEIVE:
            put_words( line, queue_words( record, is_finish ) );
            put_words( line, ": %r" );
            *owed = NOTHING;
            break;
        case MUVEHYI_SEND_WAIT:
        case MUVEHYI_RECEIVE_WAIT:
            put_words( line, queue_words( record, is_finish ) );
            put_words( line, ": blocked" );
            *owed = WAIT;
            break;
        default:
            put_words( line, fixed_words( record->kind ) );
            break;
    }
}

/* What a record of fixed words leaves its task to return from. */
static void note_waits( const struct record *record, uint8_t *owed )
{
    if( record->kind == MUVEHYI_NOTIFY_WAIT || record->kind == MUVEHYI_NOTIFY_TAKE )
        *owed = WAIT;
    else if( record->kind == MUVEHYI_DELAY_UNTIL && ( record->note & MUVEHYI_TRUE ) )
        *owed = DELAY;
}

static int is_of_isr( unsigned kind )
{
    return kind >= MUVEHYI_ISR_NOTIFY && kind <= MUVEHYI_ISR_RESUME;
}

/* The record behind one in its ring, where there is one. */
static const struct record *record_behind( const struct line *line )
{
    const struct ring *ring = &rings[ line->core ];
    const uint32_t next = ring->tail + 1u + line->record->is_long;
    return next == __atomic_load_n( &ring->head, __ATOMIC_ACQUIRE ) ? NULL : &ring->records[ next & LAST_PLACE ];
}

/* What an interrupt saw: its kernel says whether the core is to switch in a record of its own, right behind. */
static void put_isr_reply( const struct line *line )
{
    const struct record *reply = record_behind( line );
    if( reply != NULL && reply->kind == MUVEHYI_ISR_REPLY )
    {
        put_words( line, ": isr %r " );
        put_flag( reply->note & MUVEHYI_TRUE );
    }
}

static void put_time( uint32_t time )
{
    put_number( time );
    put_char( ' ' );
}

/* The time of a record. On several cores it may be a little before that of the record before it: then it is that. */
static uint32_t time_of( const struct record *record )
{
    const uint32_t all = 0xFFFFFFFFu >> ( 32 - MUVEHYI_TIME_BITS );
    const uint32_t time = record->time & all;
    const int went_back = MUVEHYI_CORES > 1 && has_printed && ( ( time - printed_time ) & all ) > all / 2u;
    printed_time = went_back ? printed_time : time;
    has_printed = 1;
    return printed_time;
}

/* The task that a core took. One that was in a delay returns from it there. */
static unsigned put_switch( const struct line *line, uint32_t time )
{
    const uint8_t task = line->record->what;
    unsigned lines = 0;
    if( current[ line->core ] != 0 )
    {
        put_time( time );
        put_words( line, "switch core %c: %t\n" );
        lines++;
    }
    current[ line->core ] = task;
    if( task <= task_count && unfinished[ task ] == DELAY )
    {
        unfinished[ task ] = NOTHING;
        put_time( time );
        put_words( line, "finish core %c by %b: done\n" );
        lines++;
    }
    return lines;
}

/* The lines of a record: none, one, or two. What a core does before its first task runs has none. */
static unsigned put_lines( const struct line *line )
{
    const struct record *record = line->record;
    uint8_t *owed = &unfinished[ current[ line->core ] ];
    if( record->kind == MUVEHYI_SWITCH )
        return put_switch( line, time_of( record ) );
    if( record->kind == MUVEHYI_ISR_REPLY || ( current[ line->core ] == 0 && record->kind != MUVEHYI_TICK ) )
        return 0;
    put_time( time_of( record ) );
    put_record( line, owed );
    note_waits( record, owed );
    if( is_of_isr( record->kind ) )
        put_isr_reply( line );
    put_char( '\n' );
    return 1;
}

/* The core whose ring has the next record, or their number. */
static unsigned core_of_next( void )
{
    unsigned core = 0;
    while( core < MUVEHYI_CORES )
    {
        const struct ring *ring = &rings[ core ];
        const int is_empty = __atomic_load_n( &ring->head, __ATOMIC_ACQUIRE ) == ring->tail;
        if( !is_empty && ring->records[ ring->tail & LAST_PLACE ].order == printed_order )
            break;
        core++;
    }
    return core;
}

/* On one core nothing is printed before it is known which task ran first: the one that the first switch left, or while there was no
 * switch the one that runs. */
static int is_known( unsigned core )
{
    if( MUVEHYI_CORES == 1 && current[ core ] == 0 )
    {
        const uint8_t running = ( uint8_t ) number_of( ( void * ) xTaskGetCurrentTaskHandle() );
        const uint8_t first = *( volatile uint8_t * ) &rings[ core ].first;
        current[ core ] = first != 0 ? first : running;
    }
    return MUVEHYI_CORES > 1 || current[ core ] != 0;
}

unsigned muvehyi_trace_print( void ( *put )( char ) )
{
    unsigned lines = 0, core;
    put_char = put;
    while( ( core = core_of_next() ) < MUVEHYI_CORES && is_known( core ) )
    {
        struct ring *ring = &rings[ core ];
        const struct line line = { core, &ring->records[ ring->tail & LAST_PLACE ],
                                   &ring->records[ ( ring->tail + 1u ) & LAST_PLACE ] };
        lines += put_lines( &line );
        printed_order++;
        __atomic_store_n( &ring->tail, ring->tail + 1u + line.record->is_long, __ATOMIC_RELEASE );
    }
    return lines;
}
