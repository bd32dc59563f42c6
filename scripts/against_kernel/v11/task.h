/* What the hooks use of V11's task.h. */
#ifndef INC_TASK_H
#define INC_TASK_H
#define tskKERNEL_VERSION_MAJOR 11
struct tskTaskControlBlock;
typedef struct tskTaskControlBlock *TaskHandle_t;
typedef enum { eNoAction = 0, eSetBits, eIncrement, eSetValueWithOverwrite, eSetValueWithoutOverwrite } eNotifyAction;
void vPortYield( void );
#define taskYIELD() vPortYield()
void vTaskEnterCritical( void );
void vTaskExitCritical( void );
#define taskENTER_CRITICAL() vTaskEnterCritical()
#define taskEXIT_CRITICAL() vTaskExitCritical()
TickType_t xTaskGetTickCount( void );
TaskHandle_t xTaskGetCurrentTaskHandle( void );
void vTaskDelay( const TickType_t xTicksToDelay );
BaseType_t xTaskDelayUntil( TickType_t * const pxPreviousWakeTime, const TickType_t xTimeIncrement );
#define vTaskDelayUntil( pxPreviousWakeTime, xTimeIncrement ) \
    do { ( void ) xTaskDelayUntil( ( pxPreviousWakeTime ), ( xTimeIncrement ) ); } while( 0 )
BaseType_t xTaskGenericNotifyStateClear( TaskHandle_t xTask, UBaseType_t uxIndexToClear );
#define xTaskNotifyStateClear( xTask ) xTaskGenericNotifyStateClear( ( xTask ), 0 )
#endif
