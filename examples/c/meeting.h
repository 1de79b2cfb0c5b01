/* How two lines meet, decided exactly. This is the example's own, and no part of the library: nothing of it is proved.
 *
 * The sign of a turn is taken from doubles where their error bound shows that it is right, and else from a sum of products in which nothing is rounded
 * (Shewchuk 1997). It is exact where each coordinate is 0 or at least 1e-140 in magnitude, so that no product underflows. */
#ifndef EXAMPLES_MEETING_H
#define EXAMPLES_MEETING_H

#include "morelturret_structs.h"
#include <math.h>

enum meeting { APART, ONE_POINT, MORE };

/* The sign of a sum of twelve doubles. What has been summed so far stands in parts that do not overlap, the greatest last. */
static int sign_of_sum(const double term[12]) {
    double part[12];
    for (int n = 0; n < 12; n++) {
        double sum = term[n];
        for (int k = 0; k < n; k++) {
            double next = sum + part[k], share = next - sum;
            part[k] = (sum - (next - share)) + (part[k] - share);
            sum = next;
        }
        part[n] = sum;
    }
    for (int n = 11; n >= 0; n--)
        if (part[n] != 0) return part[n] > 0 ? 1 : -1;
    return 0;
}

/* On which side of the line from a to b the point c lies: 1 left, -1 right, 0 on it. */
static int turn(double ax, double ay, double bx, double by, double cx, double cy) {
    double one = (ax - cx) * (by - cy), other = (ay - cy) * (bx - cx), sure = 3.4e-16 * (fabs(one) + fabs(other)) + 1e-300;
    if (one - other > sure) return 1;
    if (other - one > sure) return -1;
    double factor[6][2] = {{ax, by}, {-ax, cy}, {-cx, by}, {-ay, bx}, {ay, cx}, {cy, bx}}, term[12];
    for (int k = 0; k < 6; k++) {
        term[2 * k + 1] = factor[k][0] * factor[k][1];
        term[2 * k] = fma(factor[k][0], factor[k][1], -term[2 * k + 1]);
    }
    return sign_of_sum(term);
}

static double smaller(double a, double b) { return a < b ? a : b; }
static double larger(double a, double b) { return a > b ? a : b; }

/* Whether two spans that overlap share more than a value. */
static int share_more(double a, double b, double c, double d) {
    return smaller(larger(a, b), larger(c, d)) > larger(smaller(a, b), smaller(c, d));
}

/* How the lines i and j meet, whose boxes overlap. */
static enum meeting meeting(const mt_lines *lines, size_t i, size_t j) {
    double ax = lines->start_x[i], ay = lines->start_y[i], bx = lines->end_x[i], by = lines->end_y[i];
    double cx = lines->start_x[j], cy = lines->start_y[j], dx = lines->end_x[j], dy = lines->end_y[j];
    int c_side = turn(ax, ay, bx, by, cx, cy), d_side = turn(ax, ay, bx, by, dx, dy);
    if (c_side * d_side > 0) return APART;
    int a_side = turn(cx, cy, dx, dy, ax, ay), b_side = turn(cx, cy, dx, dy, bx, by);
    if (a_side * b_side > 0) return APART;
    if (c_side || d_side || a_side || b_side) return ONE_POINT;
    return share_more(ax, bx, cx, dx) || share_more(ay, by, cy, dy) ? MORE : ONE_POINT;
}

/* Whether the lines i and j are a crossing: they share a point, and are not a leg and the next that share just their joint. */
static int crosses(const mt_lines *lines, size_t i, size_t j) {
    size_t low = i < j ? i : j, high = i < j ? j : i;
    int joined = high == low + 1 && lines->end_x[low] == lines->start_x[high] && lines->end_y[low] == lines->start_y[high];
    return meeting(lines, i, j) >= (joined ? MORE : ONE_POINT);
}

#endif
