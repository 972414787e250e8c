/* Stepped axes of whole numbers. */
#define NUMBER int32_t
#define CULV(name) culv_step_whole_##name
#define CULV_SEG(name) culv_seg_step_whole_##name
#define DRAW_STEPS draw_whole_steps
#define DRAW_VALUE draw_whole
#define ADMITTED(...) WHOLES(__VA_ARGS__)
#define STEP_CALLS WHOLE_STEP_CALLS
#include "steps.inc"
