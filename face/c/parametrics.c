/* Tests of parametric curves. */
#include "check.h"

#include <math.h>

static void unified(void)
{
    float *params = LEND_COPY(float, 2.0f, 4.0f, 3.0f, 5.0f, 6.0f, 7.0f, 8.0f, 9.0f);
    float *flat = LEND_COPY(float, 2.0f, 0.0f, 3.0f);
    ANSWERS(curve_is(bg_parametric_curve_new(params, 1), 2, 1, 0, 0, 0, 0, 0));
    ANSWERS(curve_is(bg_parametric_curve_new(params, 3), 2, 4, 3, 0, -0.75f, 0, 0));
    ANSWERS(curve_is(bg_parametric_curve_new(params, 4), 2, 4, 3, 0, -0.75f, 5, 5));
    ANSWERS(curve_is(bg_parametric_curve_new(params, 5), 2, 4, 3, 5, 6, 0, 0));
    ANSWERS(curve_is(bg_parametric_curve_new(params, 7), 2, 4, 3, 5, 6, 7, 8));
    ANSWERS(curve_is(bg_parametric_curve_new(flat, 3), 2, 0, 3, 0, -INFINITY, 0, 0));
    ANSWERS(curve_refused(bg_parametric_curve_new(NULL, 0), BG_PARAMETER_COUNT));
    ANSWERS(curve_refused(bg_parametric_curve_new(params, 2), BG_PARAMETER_COUNT));
    ANSWERS(curve_refused(bg_parametric_curve_new(params, 6), BG_PARAMETER_COUNT));
    ANSWERS(curve_refused(bg_parametric_curve_new(params, 8), BG_PARAMETER_COUNT));
    give_back();
}

static void compared(void)
{
    float *zeros = LEND_COPY(float, 0.0f, 0.0f);
    float *near = LEND_COPY(float, 1e-4f, -1e-4f);
    float *far = LEND_COPY(float, 0.0f, 2e-4f);
    float *unsure = LEND_COPY(float, NAN, 0.0f);
    ANSWERS(bg_compare_parametric(zeros, 2, near, 2));
    ANSWERS(!bg_compare_parametric(zeros, 2, far, 2));
    ANSWERS(bg_compare_parametric(zeros, 1, far, 2));
    ANSWERS(bg_compare_parametric(unsure, 2, zeros, 2));
    ANSWERS(bg_compare_parametric(NULL, 0, far, 2));
    ANSWERS(bg_compare_parametric(NULL, 0, NULL, 0));
    give_back();
}

void parametrics(void)
{
    unified();
    compared();
}
