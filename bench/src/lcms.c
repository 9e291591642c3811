/* Little CMS's side: the lookup that a transform makes of a curve, the reversed curve, and a gamma curve. Its answers
   are its own. */
#include "work.h"

#include <lcms2.h>
#include <string.h>

uint16_t lcms_lookup(const struct work *work, uint16_t position) {
    return cmsEvalToneCurve16(work->lcms_curve, position);
}

static uint64_t lookup(const struct work *work) {
    uint64_t sum = 0;
    for (size_t i = 0; i < work->count; i++)
        sum += cmsEvalToneCurve16(work->lcms_curve, work->asked[i]);
    return sum;
}

static uint64_t reverse(const struct work *work) {
    uint64_t sum = 0;
    for (size_t i = 0; i < work->count; i++) {
        cmsToneCurve *reversed = cmsReverseToneCurveEx(INVERTED, work->lcms_curve);
        sum += cmsGetToneCurveEstimatedTable(reversed)[INVERTED / 2];
        cmsFreeToneCurve(reversed);
    }
    return sum;
}

size_t lcms_gamma(double gamma, uint16_t *out) {
    cmsToneCurve *curve = cmsBuildGamma(NULL, gamma);
    size_t entries = cmsGetToneCurveEstimatedTableEntries(curve);
    memcpy(out, cmsGetToneCurveEstimatedTable(curve), entries * sizeof *out);
    cmsFreeToneCurve(curve);
    return entries;
}

static uint64_t gammas(const struct work *work, double gamma) {
    uint64_t sum = 0;
    for (size_t i = 0; i < work->count; i++) {
        cmsToneCurve *curve = cmsBuildGamma(NULL, gamma);
        sum += cmsGetToneCurveEstimatedTable(curve)[LCMS_GAMMA_ENTRIES / 2];
        cmsFreeToneCurve(curve);
    }
    return sum;
}

static uint64_t power_table(const struct work *work) { return gammas(work, EXPONENT / 65536.0); }
static uint64_t tag_power_table(const struct work *work) { return gammas(work, GAMMA_ENTRY / 256.0); }

const struct side lcms_sides[] = {
    {"lookup", "lcms", false, lookup},
    {"invert", "lcms", false, reverse},
    {"power-table", "lcms", false, power_table},
    {"tag-power-table", "lcms", false, tag_power_table},
    {0},
};

/* Little CMS takes no table of more than 65,530 entries and says so in its log, which is off. */
void lcms_prepare(struct work *work) {
    work->lcms_curve = cmsBuildTabulatedToneCurve16(NULL, (cmsUInt32Number)work->n, work->table);
}
