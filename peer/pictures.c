/*
 * The pictures: a control screen, text, something like a photograph, noise, noise of the ends alone, gradients and flat colours. Whole numbers only, so they
 * are the same on every machine. A small control or text screen is a part out of the midst of the one of 1,024 x 768.
 */
#include "peer.h"

#include <stdlib.h>
#include <string.h>

const char *const kind_names[KINDS] = {"control", "text", "photo", "noise", "harsh", "gradient", "flat"};

typedef struct Rgb {
    uint8_t r, g, b;
} Rgb;

/* ---- chance */

static uint32_t seed;

static uint32_t below(uint32_t n)
{
    seed ^= seed << 13;
    seed ^= seed >> 17;
    seed ^= seed << 5;
    return (seed >> 8) % n;
}

/* 0 to 255 from a place, without a memory. */
static int chance_at(uint32_t x, uint32_t y, uint32_t what)
{
    uint32_t h = x * 0x9E3779B1u ^ y * 0x85EBCA77u ^ what * 0xC2B2AE3Du;
    h = (h ^ h >> 15) * 0x2C1B3C6Du;
    h = (h ^ h >> 12) * 0x297A2D39u;
    return (int)((h ^ h >> 15) & 255);
}

/* ---- screens: things drawn at places of 1,024 x 768 */

static Picture *onto;
static int left, top;

static void dot(int x, int y, Rgb c)
{
    x -= left;
    y -= top;
    if (x >= 0 && y >= 0 && x < (int)onto->width && y < (int)onto->height) {
        uint8_t *at = onto->rgb + 3 * ((size_t)y * onto->width + (size_t)x);
        at[0] = c.r;
        at[1] = c.g;
        at[2] = c.b;
    }
}

static void area(int x, int y, int w, int h, Rgb c)
{
    for (int py = y; py < y + h; py++)
        for (int px = x; px < x + w; px++) dot(px, py, c);
}

static void box(int x, int y, int w, int h, Rgb c)
{
    area(x, y, w, 2, c);
    area(x, y + h - 2, w, 2, c);
    area(x, y, 2, h, c);
    area(x + w - 2, y, 2, h, c);
}

static void line(int x0, int y0, int x1, int y1, Rgb c)
{
    int across = abs(x1 - x0), down = abs(y1 - y0), n = across > down ? across : down;
    for (int i = 0; i <= n; i++) dot(x0 + (n ? (x1 - x0) * i / n : 0), y0 + (n ? (y1 - y0) * i / n : 0), c);
}

/* 0 to 9, A to Z: five columns of seven, low bit on top, as in bench/screens.rs. */
static const char letters[] = "0123456789ABCDEFGHIJKLMNOPQRSTUVWXYZ";
static const uint8_t glyphs[36][5] = {
    {0x3E, 0x51, 0x49, 0x45, 0x3E}, {0x00, 0x42, 0x7F, 0x40, 0x00}, {0x42, 0x61, 0x51, 0x49, 0x46}, {0x21, 0x41, 0x45, 0x4B, 0x31},
    {0x18, 0x14, 0x12, 0x7F, 0x10}, {0x27, 0x45, 0x45, 0x45, 0x39}, {0x3C, 0x4A, 0x49, 0x49, 0x30}, {0x01, 0x71, 0x09, 0x05, 0x03},
    {0x36, 0x49, 0x49, 0x49, 0x36}, {0x06, 0x49, 0x49, 0x29, 0x1E}, {0x7E, 0x11, 0x11, 0x11, 0x7E}, {0x7F, 0x49, 0x49, 0x49, 0x36},
    {0x3E, 0x41, 0x41, 0x41, 0x22}, {0x7F, 0x41, 0x41, 0x22, 0x1C}, {0x7F, 0x49, 0x49, 0x49, 0x41}, {0x7F, 0x09, 0x09, 0x09, 0x01},
    {0x3E, 0x41, 0x49, 0x49, 0x7A}, {0x7F, 0x08, 0x08, 0x08, 0x7F}, {0x00, 0x41, 0x7F, 0x41, 0x00}, {0x20, 0x40, 0x41, 0x3F, 0x01},
    {0x7F, 0x08, 0x14, 0x22, 0x41}, {0x7F, 0x40, 0x40, 0x40, 0x40}, {0x7F, 0x02, 0x0C, 0x02, 0x7F}, {0x7F, 0x04, 0x08, 0x10, 0x7F},
    {0x3E, 0x41, 0x41, 0x41, 0x3E}, {0x7F, 0x09, 0x09, 0x09, 0x06}, {0x3E, 0x41, 0x51, 0x21, 0x5E}, {0x7F, 0x09, 0x19, 0x29, 0x46},
    {0x46, 0x49, 0x49, 0x49, 0x31}, {0x01, 0x01, 0x7F, 0x01, 0x01}, {0x3F, 0x40, 0x40, 0x40, 0x3F}, {0x1F, 0x20, 0x40, 0x20, 0x1F},
    {0x3F, 0x40, 0x38, 0x40, 0x3F}, {0x63, 0x14, 0x08, 0x14, 0x63}, {0x07, 0x08, 0x70, 0x08, 0x07}, {0x61, 0x51, 0x49, 0x45, 0x43},
};

static void letter(int x, int y, int scale, char which, Rgb c)
{
    const char *found = which ? strchr(letters, which) : NULL;
    if (!found) return;
    for (int column = 0; column < 5; column++)
        for (int row = 0; row < 7; row++)
            if (glyphs[found - letters][column] >> row & 1) area(x + column * scale, y + row * scale, scale, scale, c);
}

static void words(int x, int y, int scale, const char *s, Rgb c)
{
    for (; *s; s++, x += 6 * scale) letter(x, y, scale, *s, c);
}

/* A round gauge: a disc with a ring, and a needle to one of eight sides. */
static void gauge(int x, int y, int r, uint32_t side, Rgb c)
{
    static const int to[8][2] = {{10, 0}, {7, 7}, {0, 10}, {-7, 7}, {-10, 0}, {-7, -7}, {0, -10}, {7, -7}};
    for (int py = -r; py <= r; py++)
        for (int px = -r; px <= r; px++) {
            int d = px * px + py * py;
            if (d <= r * r) dot(x + px, y + py, d >= (r - 4) * (r - 4) ? c : (Rgb){24, 28, 36});
        }
    line(x, y, x + to[side][0] * r * 3 / 40, y + to[side][1] * r * 3 / 40, (Rgb){240, 80, 40});
    line(x + 1, y, x + 1 + to[side][0] * r * 3 / 40, y + to[side][1] * r * 3 / 40, (Rgb){240, 80, 40});
}

/* One of the eight boxes: a title, a gauge, four bars. */
static void pump(int x, int y)
{
    area(x, y, 240, 196, (Rgb){52, 60, 72});
    box(x, y, 240, 196, (Rgb){110, 120, 135});
    area(x + 2, y + 2, 236, 20, (Rgb){70, 82, 100});
    words(x + 8, y + 5, 2, "PUMP", (Rgb){235, 240, 245});
    letter(x + 68, y + 5, 2, letters[below(10)], (Rgb){235, 240, 245});
    gauge(x + 74, y + 106, 60, below(8), (Rgb){90, 170, 210});
    words(x + 40, y + 174, 2, "BAR", (Rgb){120, 230, 120});
    for (int k = 0; k < 4; k++) {
        int full = 20 + (int)below(100);
        area(x + 152 + 20 * k, y + 34, 14, 130, (Rgb){24, 28, 36});
        area(x + 152 + 20 * k, y + 164 - full, 14, full, full > 100 ? (Rgb){230, 60, 50} : (Rgb){80, 190, 90});
    }
}

static void trends(void)
{
    static const Rgb colours[3] = {{250, 210, 60}, {90, 200, 250}, {240, 110, 90}};
    area(14, 476, 996, 246, (Rgb){16, 18, 22});
    box(14, 476, 996, 246, (Rgb){110, 120, 135});
    for (int k = 1; k < 16; k++) line(14 + 62 * k, 478, 14 + 62 * k, 719, (Rgb){44, 50, 58});
    for (int k = 0; k < 3; k++)
        for (int x = 18, y = 540 + 60 * k; x < 1004; x++) {
            int to = y + (int)below(7) - 3;
            to = to < 482 ? 482 : to > 716 ? 716 : to;
            line(x, y, x + 1, to, colours[k]);
            y = to;
        }
}

static void control(void)
{
    area(0, 0, WIDEST, HIGHEST, (Rgb){40, 46, 56});
    area(0, 0, WIDEST, 36, (Rgb){12, 60, 110});
    words(12, 8, 3, "CABINET 7  WATER WORKS NORTH", (Rgb){235, 240, 245});
    for (int i = 0; i < 8; i++) pump(14 + i % 4 * 252, 50 + i / 4 * 210);
    trends();
    area(0, 732, WIDEST, 36, (Rgb){30, 34, 42});
    for (int k = 0; k < 8; k++) {
        area(14 + 126 * k, 738, 112, 24, (Rgb){70, 82, 100});
        words(24 + 126 * k, 743, 2, k % 2 ? "ALARM" : "TREND", (Rgb){235, 240, 245});
    }
}

static void text(void)
{
    area(0, 0, WIDEST, HIGHEST, (Rgb){255, 255, 255});
    for (int row = 0; row < 76; row++)
        for (int x = 8; x < WIDEST - 8; x += 6)
            if (below(6)) letter(x, 4 + 10 * row, 1, letters[below(36)], (Rgb){0, 0, 0});
}

/* ---- pictures by place */

/* Chance at the corners of squares, and between them in a straight line. */
static int hills(size_t x, size_t y, size_t side, uint32_t what)
{
    uint32_t i = (uint32_t)(x / side), j = (uint32_t)(y / side);
    int u = (int)(x % side), v = (int)(y % side), n = (int)side;
    int above = chance_at(i, j, what) * (n - u) + chance_at(i + 1, j, what) * u;
    int under = chance_at(i, j + 1, what) * (n - u) + chance_at(i + 1, j + 1, what) * u;
    return (above * (n - v) + under * v) / (n * n);
}

static uint8_t byte_of(int v) { return (uint8_t)(v < 0 ? 0 : v > 255 ? 255 : v); }

/* Wide and narrow hills of light, wide ones of colour, and grain. */
static Rgb photo_at(size_t x, size_t y)
{
    int light = (hills(x, y, 160, 1) * 4 + hills(x, y, 40, 2) * 2 + hills(x, y, 9, 3)) / 7;
    int red = hills(x, y, 90, 4) / 4 - 32, blue = hills(x, y, 120, 5) / 4 - 32;
    int grain = chance_at((uint32_t)x, (uint32_t)y, 6) % 13 - 6;
    light += (light - 128) / 2 + grain;
    return (Rgb){byte_of(light + red), byte_of(light - (red + blue) / 3), byte_of(light + blue)};
}

static Rgb noise_at(size_t x, size_t y)
{
    uint32_t i = (uint32_t)x, j = (uint32_t)y;
    return (Rgb){(uint8_t)chance_at(i, j, 7), (uint8_t)chance_at(i, j, 8), (uint8_t)chance_at(i, j, 9)};
}

/* Nothing but 0 and 255: black and white in one column of tiles, in the next each channel for itself. */
static Rgb harsh_at(size_t x, size_t y)
{
    Rgb c = noise_at(x, y);
    uint8_t r = c.r & 1 ? 255 : 0, g = c.g & 1 ? 255 : 0, b = c.b & 1 ? 255 : 0;
    return x / 64 % 2 ? (Rgb){r, g, b} : (Rgb){r, r, r};
}

static Rgb gradient_at(size_t x, size_t y)
{
    size_t w = onto->width, h = onto->height;
    return (Rgb){(uint8_t)(255 * x / w), (uint8_t)(255 * y / h), (uint8_t)(255 - 255 * (x + y) / (w + h))};
}

/* Four times four fields, of the colours' ends and of what lies between. */
static Rgb flat_at(size_t x, size_t y)
{
    static const Rgb colours[16] = {{0, 0, 0},       {255, 255, 255}, {255, 0, 0},    {0, 255, 0},   {0, 0, 255},     {255, 255, 0},
                                    {0, 255, 255},   {255, 0, 255},   {128, 128, 128}, {40, 46, 56}, {12, 60, 110},   {200, 120, 7},
                                    {127, 128, 129}, {1, 254, 3},     {90, 170, 210}, {250, 210, 60}};
    size_t field = 4 * (4 * y / onto->height) + 4 * x / onto->width;
    return colours[(field + onto->width + 5 * onto->height) % 16];
}

static void by_place(Rgb (*at)(size_t, size_t))
{
    uint8_t *to = onto->rgb;
    for (size_t y = 0; y < onto->height; y++)
        for (size_t x = 0; x < onto->width; x++) {
            Rgb c = at(x, y);
            *to++ = c.r;
            *to++ = c.g;
            *to++ = c.b;
        }
}

/* ---- */

static void for_freerdp(Picture *p)
{
    for (size_t i = 0; i < p->width * p->height; i++) {
        p->bgrx[4 * i] = p->rgb[3 * i + 2];
        p->bgrx[4 * i + 1] = p->rgb[3 * i + 1];
        p->bgrx[4 * i + 2] = p->rgb[3 * i];
        p->bgrx[4 * i + 3] = 0xFF;
    }
}

void draw(Picture *p, int kind, size_t width, size_t height)
{
    static Rgb (*const places[KINDS])(size_t, size_t) = {NULL, NULL, photo_at, noise_at, harsh_at, gradient_at, flat_at};
    p->kind = kind;
    p->width = width;
    p->height = height;
    onto = p;
    seed = 0x2545F491u;
    left = (int)(WIDEST - width) / 3;
    top = (int)(HIGHEST - height) / 3;
    if (kind == CONTROL) control();
    if (kind == TEXT) text();
    if (places[kind]) by_place(places[kind]);
    for_freerdp(p);
}
