/* Stepped axes of real numbers, of which all are admitted. */
#define NUMBER double
#define CULV(name) culv_step_real_##name
#define CULV_SEG(name) culv_seg_step_real_##name
#define DRAW_STEPS draw_real_steps
#define DRAW_VALUE draw_real
#define ADMITTED(...) 0
#define STEP_CALLS REAL_STEP_CALLS
#include "steps.inc"
