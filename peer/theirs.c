/*
 * FreeRDP's side (libfreerdp2): two contexts for each of its two sets of routines, portable and SIMD, in one process.
 *
 * The library chooses by what WinPR says of the processor when a context is made, and its colours by its table of primitives. So the question
 * about the processor is answered here (a function of the program goes before a library's of the same name), and the table is switched
 * before each call. Its threads are switched off by its own setting, which it looks for in WinPR's registry: CPU time is then that of the work, and
 * the codes come in the order of the tiles.
 */
#define _GNU_SOURCE
#include "peer.h"

#include <freerdp/codec/color.h>
#include <freerdp/codec/rfx.h>
#include <freerdp/freerdp.h>
#include <freerdp/primitives.h>
#include <winpr/registry.h>
#include <winpr/stream.h>
#include <winpr/sysinfo.h>

#include <dlfcn.h>
#include <stdlib.h>
#include <string.h>

const char *const side_names[SIDES] = {"portable", "SIMD"};

static RFX_CONTEXT *readers[SIDES], *writers[SIDES];
static wStream *written;

/* ---- what the library asks while a context is made */

static int plain_processor; /* answer that the processor has nothing special */
static int threads_asked;

BOOL IsProcessorFeaturePresent(DWORD feature)
{
    BOOL (*theirs)(DWORD);
    *(void **)&theirs = dlsym(RTLD_NEXT, "IsProcessorFeaturePresent");
    return !plain_processor && theirs && theirs(feature);
}

LONG RegOpenKeyExA(HKEY key, LPCSTR name, DWORD options, REGSAM wanted, PHKEY opened)
{
    (void)key, (void)options, (void)wanted;
    if (!strstr(name, "RemoteFX")) return ERROR_FILE_NOT_FOUND;
    *opened = (HKEY)&threads_asked;
    return ERROR_SUCCESS;
}

LONG RegQueryValueExA(HKEY key, LPCSTR name, LPDWORD reserved, LPDWORD type, LPBYTE data, LPDWORD size)
{
    (void)key, (void)reserved, (void)type, (void)size;
    if (strcmp(name, "UseThreads")) return ERROR_FILE_NOT_FOUND;
    memset(data, 0, sizeof(DWORD));
    threads_asked++;
    return ERROR_SUCCESS;
}

LONG RegCloseKey(HKEY key)
{
    (void)key;
    return ERROR_SUCCESS;
}

/* ---- the lists that it quantises */

static int16_t lists[3 * MOST_TILES][XURBALENZ_LIST];
static size_t codes;
static int (*their_code)(RLGR_MODE, const INT16 *, UINT32, BYTE *, UINT32);

/* Stands in for the library's component writer while lists are kept. */
static int keep_list(RLGR_MODE mode, const INT16 *data, UINT32 size, BYTE *out, UINT32 room)
{
    if (size != XURBALENZ_LIST || codes == 3 * MOST_TILES) give_up("FreeRDP writes a code that is not one of a tile's three");
    memcpy(lists[codes++], data, sizeof lists[0]);
    return their_code(mode, data, size, out, room);
}

const int16_t *theirs_list(size_t code)
{
    if (code >= codes) give_up("FreeRDP's stream has more codes than it wrote");
    return lists[code];
}

/* ---- contexts */

static RFX_CONTEXT *context(int side, BOOL encoder)
{
    RFX_CONTEXT *made;
    plain_processor = side == PORTABLE;
    made = rfx_context_new(encoder);
    plain_processor = 0;
    if (made && encoder) {
        made->quants = calloc(10, sizeof *made->quants); /* theirs to free */
        made->numQuant = 1;
    }
    return made && (!encoder || made->quants) ? made : NULL;
}

/* The colours of the processor's own routines. Where Debian's library has none (arm64) it says so at every call that asks for them. */
#if defined(__x86_64__)
#define OF_THE_PROCESSOR PRIMITIVES_ONLY_CPU
#else
#define OF_THE_PROCESSOR PRIMITIVES_PURE_SOFT
#endif

static void use(int side)
{
    primitives_init(primitives_get(), side == PORTABLE ? PRIMITIVES_PURE_SOFT : OF_THE_PROCESSOR);
}

const char *theirs_open(void)
{
    primitives_set_hints(OF_THE_PROCESSOR); /* else it runs a benchmark of its own */
    primitives_get();
    for (int side = 0; side < SIDES; side++) {
        readers[side] = context(side, FALSE);
        writers[side] = context(side, TRUE);
        if (!readers[side] || !writers[side]) return "FreeRDP makes no context";
    }
    if (threads_asked < 2 * SIDES) return "FreeRDP did not ask whether to use threads, so they cannot be switched off";
    their_code = writers[PORTABLE]->rlgr_encode;
    written = Stream_New(NULL, 1 << 20);
    return written ? NULL : "there is no memory";
}

void theirs_close(void)
{
    for (int side = 0; side < SIDES; side++) {
        rfx_context_free(readers[side]);
        rfx_context_free(writers[side]);
    }
    Stream_Free(written, TRUE);
}

int theirs_switched(void) { return readers[PORTABLE]->dwt_2d_decode != readers[SIMD]->dwt_2d_decode; }

const char *theirs_version(void) { return freerdp_get_version_string(); }

/* ---- the two ways */

static int read_as(int side, const Stream *in, const Picture *p, void *to, UINT32 format, size_t bytes)
{
    use(side);
    return rfx_process_message(readers[side], in->bytes, (UINT32)in->size, 0, 0, to, format, (UINT32)(bytes * p->width), (UINT32)p->height, NULL);
}

int theirs_read(int side, const Stream *in, const Picture *p, uint16_t *words)
{
    return read_as(side, in, p, words, PIXEL_FORMAT_RGB16, 2);
}

int theirs_read_32(int side, const Stream *in, const Picture *p, uint32_t *pixels)
{
    return read_as(side, in, p, pixels, PIXEL_FORMAT_BGRX32, 4);
}

int theirs_write(int side, const Picture *p, const Setting *with, Stream *out)
{
    RFX_CONTEXT *writer = writers[side];
    RFX_RECT whole = {0, 0, (UINT16)p->width, (UINT16)p->height};
    use(side);
    writer->mode = with->mode == XURBALENZ_RLGR1 ? RLGR1 : RLGR3;
    for (int i = 0; i < 10; i++) writer->quants[i] = with->quant[i];
    codes = 0;
    writer->rlgr_encode = out ? keep_list : their_code;
    Stream_SetPosition(written, 0);
    if (!rfx_context_reset(writer, (UINT32)p->width, (UINT32)p->height)) return 0;
    if (!rfx_compose_message(writer, written, &whole, 1, p->bgrx, (UINT32)p->width, (UINT32)p->height, (UINT32)(4 * p->width))) return 0;
    if (!out) return 1;
    out->size = Stream_GetPosition(written);
    if (out->size > out->room) return 0;
    memcpy(out->bytes, Stream_Buffer(written), out->size);
    return 1;
}
