/*
 * Holds the static library and its header to what the header says: every limit of a record, of a
 * header and of a run's settings at its edge and far beyond, those of a set, of a node, of a node that
 * is added to and of an offset at their edge and one beyond, what drag and edges leave of a node's
 * velocity, sets that are added in parts, every number of marks, and that calls leave them, totals,
 * refusals by name and by text, empty slices, a file that is written and read back, names and stores at
 * their edges, a store of four of the largest baths, and the lesson page's limits in each of its calls,
 * beside the bench's. Exits with 1 where something differs, and says where.
 */
#include <inttypes.h>
#include <stdio.h>
#include <string.h>

#include "gondwize.h"

static int failures;

static void same(const char *what, uint64_t got, uint64_t want)
{
    if (got == want)
        return;
    failures++;
    printf("%s: %" PRIu64 ", and not %" PRIu64 "\n", what, got, want);
}

static uint64_t refused(enum gondwize_refusal number, uint64_t place)
{
    return ((uint64_t)number << 32) + place;
}

/* ---- A record of wide numbers. */

struct record {
    uint16_t identifier;
    uint64_t mass, x, y;
    int64_t v[2], b[4];
    uint8_t marks;
};

static const struct record plain = {7, 1, 64, 64, {3, -3}, {5, -5, 6, -6}, 201};

/* What a write answers. A refused one leaves the buffer, and an accepted one reads back as written. */
static uint64_t written(const char *what, const struct record *r)
{
    uint8_t bytes[GONDWIZE_RECORD_LENGTH], before[GONDWIZE_RECORD_LENGTH];
    int64_t p[GONDWIZE_PARTICLE_VALUES];
    memset(before, 0xA5, sizeof before);
    memcpy(bytes, before, sizeof bytes);
    uint64_t answer = gondwize_write_record(r->identifier, r->mass, r->x, r->y, r->v[0], r->v[1],
                                            r->b[0], r->b[1], r->b[2], r->b[3], r->marks, bytes,
                                            sizeof bytes);
    if (answer != 0) {
        same(what, (uint64_t)memcmp(bytes, before, sizeof bytes), 0);
        return answer;
    }
    same(what, gondwize_read_record(bytes, sizeof bytes, p), 0);
    const int64_t want[GONDWIZE_PARTICLE_VALUES] = {
        r->identifier, (int64_t)r->mass, (int64_t)r->x, (int64_t)r->y, r->v[0],
        r->v[1], r->b[0], r->b[1], r->b[2], r->b[3], r->marks};
    same(what, (uint64_t)memcmp(p, want, sizeof p), 0);
    return 0;
}

static void unsigned_field(const char *what, size_t at, uint64_t least, uint64_t most,
                           enum gondwize_refusal number)
{
    const uint64_t within[] = {least, most};
    const uint64_t beyond[] = {most + 1, 65535, 65536, 65536 + least, 65537, 131072,
                               UINT64_C(4294967297), UINT64_MAX};
    struct record r = plain;
    uint64_t *field = at == 0 ? &r.mass : at == 1 ? &r.x : &r.y;
    for (size_t k = 0; k < sizeof within / sizeof *within; k++) {
        *field = within[k];
        same(what, written(what, &r), 0);
    }
    for (size_t k = 0; k < sizeof beyond / sizeof *beyond; k++) {
        *field = beyond[k];
        same(what, written(what, &r), refused(number, 0));
    }
    if (least > 0) {
        *field = least - 1;
        same(what, written(what, &r), refused(number, 0));
    }
}

static void signed_field(const char *what, size_t at, int64_t most, enum gondwize_refusal number)
{
    const int64_t beyond[] = {most + 1, 32767, 32768, 65536, 65539, 4294967299, INT64_MAX,
                              -most - 1, -32768, -32769, -65533, -65536, -4294967293, INT64_MIN};
    struct record r = plain;
    int64_t *field = at < 2 ? &r.v[at] : &r.b[at - 2];
    for (int sign = -1; sign <= 1; sign++) {
        *field = sign * most;
        same(what, written(what, &r), 0);
    }
    for (size_t k = 0; k < sizeof beyond / sizeof *beyond; k++) {
        *field = beyond[k];
        same(what, written(what, &r), refused(number, 0));
    }
}

static void records(void)
{
    static const char *const names[] = {"vx", "vy", "Bxx", "Bxy", "Byx", "Byy"};
    unsigned_field("mass", 0, GONDWIZE_LEAST_MASS, GONDWIZE_MOST_MASS, GONDWIZE_REFUSED_MASS);
    unsigned_field("x", 1, 0, GONDWIZE_MOST_POSITION, GONDWIZE_REFUSED_POSITION);
    unsigned_field("y", 2, 0, GONDWIZE_MOST_POSITION, GONDWIZE_REFUSED_POSITION);
    for (size_t at = 0; at < 6; at++)
        signed_field(names[at], at, at < 2 ? GONDWIZE_MOST_VELOCITY : GONDWIZE_MOST_AFFINE,
                     at < 2 ? GONDWIZE_REFUSED_VELOCITY : GONDWIZE_REFUSED_AFFINE);
}

/* ---- A header of wide numbers. */

struct header {
    size_t nx, ny;
    int64_t gx, gy;
    size_t count, steps, kind, width, drag;
};

static const struct header full = {GONDWIZE_MOST_NODES, GONDWIZE_MOST_NODES, -GONDWIZE_MOST_GRAVITY,
                                   GONDWIZE_MOST_GRAVITY, 0, GONDWIZE_MOST_STEPS,
                                   GONDWIZE_EDGE_SLIP, GONDWIZE_MOST_WIDTH, GONDWIZE_MOST_DRAG};

static uint64_t header_written(const char *what, const struct header *h)
{
    uint8_t bytes[GONDWIZE_HEADER_LENGTH], before[GONDWIZE_HEADER_LENGTH];
    int64_t values[GONDWIZE_HEADER_VALUES];
    memset(before, 0xA5, sizeof before);
    memcpy(bytes, before, sizeof bytes);
    uint64_t answer = gondwize_write_header(h->nx, h->ny, h->gx, h->gy, h->count, h->steps,
                                            h->kind, h->width, h->drag, bytes, sizeof bytes);
    if (answer != 0) {
        same(what, (uint64_t)memcmp(bytes, before, sizeof bytes), 0);
    } else if (h->count == 0) {
        const int64_t want[GONDWIZE_HEADER_VALUES] = {
            (int64_t)h->nx, (int64_t)h->ny, h->gx, h->gy, (int64_t)h->count,
            (int64_t)h->steps, (int64_t)h->kind, (int64_t)h->width, (int64_t)h->drag};
        same(what, gondwize_read_file(bytes, sizeof bytes, values), 0);
        same(what, (uint64_t)memcmp(values, want, sizeof values), 0);
    }
    return answer;
}

static void header_size(const char *what, size_t at, size_t least, size_t most,
                        enum gondwize_refusal number)
{
    const size_t within[] = {least, most};
    const size_t beyond[] = {most + 1, 65536 + least, 65536 + most, UINT32_MAX, SIZE_MAX};
    struct header h = full;
    size_t *const fields[] = {&h.nx, &h.ny, &h.count, &h.steps, &h.drag};
    for (size_t k = 0; k < sizeof within / sizeof *within; k++) {
        *fields[at] = within[k];
        same(what, header_written(what, &h), 0);
    }
    for (size_t k = 0; k < sizeof beyond / sizeof *beyond; k++) {
        *fields[at] = beyond[k];
        same(what, header_written(what, &h), refused(number, 0));
    }
    if (least > 0) {
        *fields[at] = least - 1;
        same(what, header_written(what, &h), refused(number, 0));
    }
}

static void headers(void)
{
    const int64_t beyond[] = {4097, 65536, 65541, -4097, -65531, INT64_MAX, INT64_MIN};
    header_size("nx", 0, GONDWIZE_LEAST_NODES, GONDWIZE_MOST_NODES, GONDWIZE_REFUSED_GRID_SIZE);
    header_size("ny", 1, GONDWIZE_LEAST_NODES, GONDWIZE_MOST_NODES, GONDWIZE_REFUSED_GRID_SIZE);
    header_size("count", 2, 0, GONDWIZE_MOST_RECORDS, GONDWIZE_REFUSED_COUNT);
    header_size("steps", 3, 0, GONDWIZE_MOST_STEPS, GONDWIZE_REFUSED_STEPS);
    header_size("drag", 4, 0, GONDWIZE_MOST_DRAG, GONDWIZE_REFUSED_DRAG);
    for (size_t k = 0; k < sizeof beyond / sizeof *beyond; k++) {
        struct header h = full;
        h.gx = beyond[k];
        same("gx", header_written("gx", &h), refused(GONDWIZE_REFUSED_GRAVITY, 0));
        h = full;
        h.gy = beyond[k];
        same("gy", header_written("gy", &h), refused(GONDWIZE_REFUSED_GRAVITY, 0));
    }
}

/* ---- The settings of update, step and run, which answer alike, over an empty set. */

static uint64_t mass[GONDWIZE_MOST_GRID];
static int64_t px[GONDWIZE_MOST_GRID], py[GONDWIZE_MOST_GRID];

static void run_answers(size_t nx, size_t ny, int64_t gx, int64_t gy, size_t kind, size_t width,
                        size_t drag, size_t steps, uint64_t want)
{
    const size_t nodes = nx <= GONDWIZE_MOST_NODES && ny <= GONDWIZE_MOST_NODES ? nx * ny : 0;
    const uint64_t alone = GONDWIZE_NUMBER(want) == GONDWIZE_REFUSED_STEPS ? 0 : want;
    uint64_t completed = 9;
    memset(mass, 0, sizeof mass);
    memset(px, 0, sizeof px);
    memset(py, 0, sizeof py);
    same("update", gondwize_update(nx, ny, gx, gy, kind, width, drag, mass, nodes, px, nodes, py, nodes),
         alone);
    same("step", gondwize_step(nx, ny, gx, gy, kind, width, drag, NULL, 0, mass, nodes, px, nodes, py,
                               nodes), alone);
    same("run", gondwize_run(nx, ny, gx, gy, kind, width, drag, steps, NULL, 0, mass, nodes, px, nodes,
                             py, nodes, &completed), want);
    same("run's completed", completed, want == 0 ? steps : 0);
}

/* With open edges and no drag. */
static void open_run_answers(size_t nx, size_t ny, int64_t gx, int64_t gy, size_t steps, uint64_t want)
{
    run_answers(nx, ny, gx, gy, GONDWIZE_EDGE_OPEN, 0, 0, steps, want);
}

static void runs(void)
{
    const uint64_t size = refused(GONDWIZE_REFUSED_GRID_SIZE, 0);
    const uint64_t gravity = refused(GONDWIZE_REFUSED_GRAVITY, 0);
    const uint64_t steps = refused(GONDWIZE_REFUSED_STEPS, 0);
    open_run_answers(4, 48, 4096, -4096, 2, 0);
    open_run_answers(48, 4, -4096, 4096, 10000, 0);
    open_run_answers(3, 48, 0, 0, 1, size);
    open_run_answers(49, 48, 0, 0, 1, size);
    open_run_answers(48, 3, 0, 0, 1, size);
    open_run_answers(48, 65540, 0, 0, 1, size);
    open_run_answers(4, 5, 4097, 0, 1, gravity);
    open_run_answers(4, 5, 65541, 0, 1, gravity);
    open_run_answers(4, 5, 0, -65531, 1, gravity);
    open_run_answers(4, 5, 0, 0, 10001, steps);
    open_run_answers(4, 5, 0, 0, 65537, steps);
    open_run_answers(4, 5, 0, 0, SIZE_MAX, steps);
}

/* Every kind with every width, and what is none, in a run and in a header. */
static void edges(void)
{
    const size_t kinds[] = {GONDWIZE_EDGE_OPEN, GONDWIZE_EDGE_STICKY, GONDWIZE_EDGE_SLIP, 3, 4, 5,
                            256, 65537, 65538, UINT32_MAX, SIZE_MAX - 1, SIZE_MAX};
    const size_t widths[] = {0, 1, 2, 3, 4, 5, 256, 65537, UINT32_MAX, SIZE_MAX};
    for (size_t k = 0; k < sizeof kinds / sizeof *kinds; k++) {
        for (size_t w = 0; w < sizeof widths / sizeof *widths; w++) {
            const size_t kind = kinds[k], width = widths[w];
            const int narrow = GONDWIZE_LEAST_WIDTH <= width && width <= GONDWIZE_MOST_WIDTH;
            const int within = kind == GONDWIZE_EDGE_OPEN ? width == 0 : kind <= GONDWIZE_EDGE_SLIP && narrow;
            const uint64_t want = within ? 0 : refused(GONDWIZE_REFUSED_EDGE, 0);
            struct header h = full;
            h.kind = kind;
            h.width = width;
            same("edge", header_written("edge", &h), want);
            run_answers(4, 7, 5, -6, kind, width, 9, 2, want);
        }
    }
}

static void drags(void)
{
    const size_t beyond[] = {256, 257, 511, 65536, 65536 + 255, UINT32_MAX, SIZE_MAX};
    run_answers(6, 4, -5, 6, GONDWIZE_EDGE_OPEN, 0, GONDWIZE_MOST_DRAG, 2, 0);
    for (size_t k = 0; k < sizeof beyond / sizeof *beyond; k++)
        run_answers(6, 4, -5, 6, GONDWIZE_EDGE_STICKY, 1, beyond[k], 2, refused(GONDWIZE_REFUSED_DRAG, 0));
}

/* Of two limits that are broken, the one that is looked at first. */
static void orders(void)
{
    const size_t none = 3, much = GONDWIZE_MOST_DRAG + 1, many = GONDWIZE_MOST_STEPS + 1;
    const int64_t strong = GONDWIZE_MOST_GRAVITY + 1;
    struct header h = full;
    run_answers(3, 5, strong, 0, none, 0, much, 1, refused(GONDWIZE_REFUSED_GRID_SIZE, 0));
    run_answers(4, 5, strong, 0, none, 0, much, 1, refused(GONDWIZE_REFUSED_GRAVITY, 0));
    run_answers(4, 5, 0, 0, none, 0, much, 1, refused(GONDWIZE_REFUSED_EDGE, 0));
    run_answers(4, 5, 0, 0, GONDWIZE_EDGE_OPEN, 0, much, many, refused(GONDWIZE_REFUSED_DRAG, 0));
    h.steps = many;
    h.count = GONDWIZE_MOST_RECORDS + 1;
    same("count before steps", header_written("count", &h), refused(GONDWIZE_REFUSED_COUNT, 0));
    h.drag = much;
    same("drag before count", header_written("drag", &h), refused(GONDWIZE_REFUSED_DRAG, 0));
    h.kind = none;
    same("edge before drag", header_written("edge", &h), refused(GONDWIZE_REFUSED_EDGE, 0));
    h.gy = strong;
    same("gravity before edge", header_written("gravity", &h), refused(GONDWIZE_REFUSED_GRAVITY, 0));
}

/* ---- The places of a set, for each size, and its mass. */

/* With room for a record too many. */
static uint8_t set[GONDWIZE_MOST_SET_LENGTH + GONDWIZE_RECORD_LENGTH];

static void put(size_t at, uint64_t m, uint64_t x, uint64_t y)
{
    same("put", gondwize_write_record((uint16_t)at, m, x, y, 0, 0, 0, 0, 0, 0, (uint8_t)(3 * at),
                                      set + at * GONDWIZE_RECORD_LENGTH, GONDWIZE_RECORD_LENGTH), 0);
}

static void set_answers(const char *what, size_t nx, size_t ny, size_t records, uint64_t want)
{
    uint64_t count = records;
    same(what, gondwize_check_set(nx, ny, set, records * GONDWIZE_RECORD_LENGTH, &count), want);
    same(what, count, records);
}

/* The second of two records at this place. */
static void place_answers(size_t nx, size_t ny, uint64_t x, uint64_t y, enum gondwize_refusal number)
{
    put(0, 1, 64, 64);
    put(1, 1, x, y);
    set_answers("place", nx, ny, 2, number == 0 ? 0 : refused(number, 1));
}

static void places(void)
{
    const uint64_t first = GONDWIZE_FIRST_PLACE;
    const enum gondwize_refusal off = GONDWIZE_REFUSED_POSITION, none = GONDWIZE_NOT_REFUSED;
    for (size_t nx = GONDWIZE_LEAST_NODES; nx <= GONDWIZE_MOST_NODES; nx++) {
        size_t ny = GONDWIZE_LEAST_NODES + GONDWIZE_MOST_NODES - nx;
        const uint64_t right = GONDWIZE_LAST_PLACE(nx), top = GONDWIZE_LAST_PLACE(ny);
        place_answers(nx, ny, first, first, none);
        place_answers(nx, ny, right, top, none);
        place_answers(nx, ny, first - 1, top, off);
        place_answers(nx, ny, right, first - 1, off);
        place_answers(nx, ny, right + 1, first, off);
        place_answers(nx, ny, first, top + 1, off);
    }
    same("last place of 4", GONDWIZE_LAST_PLACE(4), 159);
    same("last place of 48", GONDWIZE_LAST_PLACE(48), 2975);
}

static void total_mass(void)
{
    const uint64_t most = GONDWIZE_MOST_TOTAL_MASS, each = GONDWIZE_MOST_MASS;
    const size_t last = (size_t)(most / each);
    for (size_t k = 0; k < last; k++)
        put(k, each, 64, 64);
    put(last, most - last * each, 64, 64);
    set_answers("total mass", 4, 4, last + 1, 0);
    put(last, most - last * each + 1, 64, 64);
    set_answers("total mass", 4, 4, last + 1, refused(GONDWIZE_REFUSED_TOTAL_MASS, last));
}

/* ---- The last node of the largest grid. */

static void hindered_node_answers(uint64_t m, int64_t x, int64_t y, int64_t gx, int64_t gy, size_t kind,
                                  size_t width, size_t drag, enum gondwize_refusal number)
{
    const size_t nodes = GONDWIZE_MOST_GRID, last = nodes - 1, side = GONDWIZE_MOST_NODES;
    const uint64_t want = number == 0 ? 0 : refused(number, last);
    memset(mass, 0, sizeof mass);
    memset(px, 0, sizeof px);
    memset(py, 0, sizeof py);
    mass[last] = m;
    px[last] = x;
    py[last] = y;
    same("node", gondwize_update(side, side, gx, gy, kind, width, drag, mass, nodes, px, nodes, py, nodes),
         want);
    if (number != 0) {
        same("refused node's px", (uint64_t)px[last], (uint64_t)x);
        same("refused node's py", (uint64_t)py[last], (uint64_t)y);
    }
}

/* Drag and edge come after all limits of a node. */
static void node_answers(uint64_t m, int64_t x, int64_t y, int64_t gx, int64_t gy,
                         enum gondwize_refusal number)
{
    hindered_node_answers(m, x, y, gx, gy, GONDWIZE_EDGE_STICKY, 3, 0, number);
    hindered_node_answers(m, x, y, gx, gy, GONDWIZE_EDGE_OPEN, 0, GONDWIZE_MOST_DRAG, number);
    hindered_node_answers(m, x, y, gx, gy, GONDWIZE_EDGE_OPEN, 0, 0, number);
}

static void nodes(void)
{
    const uint64_t most = GONDWIZE_MOST_NODE_MASS;
    const int64_t fast = GONDWIZE_MOST_NODE_VELOCITY, pull = GONDWIZE_MOST_GRAVITY;
    const enum gondwize_refusal heavy = GONDWIZE_REFUSED_NODE_MASS, none = GONDWIZE_NOT_REFUSED;
    node_answers(most, 0, 0, 0, 0, none);
    node_answers(most + 1, 0, 0, 0, 0, heavy);
    node_answers(0, 1, 0, 0, 0, heavy);
    node_answers(0, 0, -1, 0, 0, heavy);
    for (int64_t sign = -1; sign <= 1; sign += 2) {
        /* The half above the limit, which is even, is rounded to it. */
        const int64_t edge = sign * (4 * fast + 2), beyond = edge + sign, g = sign * pull;
        const enum gondwize_refusal quick = GONDWIZE_REFUSED_NODE_VELOCITY;
        node_answers(1, edge, 0, 0, 0, none);
        same("velocity ux", (uint64_t)px[GONDWIZE_MOST_GRID - 1], (uint64_t)(sign * fast));
        node_answers(1, 0, edge, 0, 0, none);
        same("velocity uy", (uint64_t)py[GONDWIZE_MOST_GRID - 1], (uint64_t)(sign * fast));
        node_answers(1, beyond, 0, 0, 0, quick);
        node_answers(1, 0, beyond, 0, 0, quick);
        node_answers(1, edge - 4 * g, 0, g, 0, none);
        node_answers(1, 0, beyond - 4 * g, 0, g, quick);
    }
}

/* ---- A node to which a particle adds, and one that no particle reaches, on 5 by 4 nodes. */

enum { ADDING_NX = 5, ADDING_NY = 4, ADDING_NODES = ADDING_NX * ADDING_NY, ADDING_LAST = ADDING_NODES - 1 };

/* What the particle adds to the mass of the last node, and to its momentum. */
static const uint64_t added_mass = UINT64_C(3) * 1024 * 1024;
static const int64_t added_velocity[2] = {1024 * 5 + 64 * (30 - 7), 1024 * -9 + 64 * (200 + 11)};

static void adding_answers(size_t node, uint64_t m, int64_t x, int64_t y, enum gondwize_refusal number)
{
    uint8_t record[GONDWIZE_RECORD_LENGTH];
    const uint64_t want = number == 0 ? 0 : refused(number, node);
    const uint64_t more = number == 0 && node == ADDING_LAST ? added_mass : 0;
    memset(mass, 0, sizeof mass);
    memset(px, 0, sizeof px);
    memset(py, 0, sizeof py);
    mass[node] = m;
    px[node] = x;
    py[node] = y;
    same("a record to add", gondwize_write_record(7, 3, 192, 128, 5, -9, 30, -7, 200, 11, 99, record,
                                                  sizeof record), 0);
    same("adding", gondwize_adding_scatter(ADDING_NX, ADDING_NY, record, sizeof record, mass, ADDING_NODES,
                                           px, ADDING_NODES, py, ADDING_NODES), want);
    for (size_t k = 0; number != 0 && k < ADDING_NODES; k++)
        if (k != node)
            same("a refused call's other nodes", mass[k] | (uint64_t)px[k] | (uint64_t)py[k], 0);
    same("added mass", mass[node], m + more);
    same("added px", (uint64_t)px[node], (uint64_t)(x + (int64_t)more * added_velocity[0]));
    same("added py", (uint64_t)py[node], (uint64_t)(y + (int64_t)more * added_velocity[1]));
}

static void added_nodes(void)
{
    const uint64_t most = GONDWIZE_MOST_NODE_MASS, full = most - added_mass;
    const enum gondwize_refusal present = GONDWIZE_REFUSED_PRESENT_NODE, none = GONDWIZE_NOT_REFUSED;
    const uint64_t masses[] = {0, 1, 3, full};
    adding_answers(0, most, 0, 0, none);
    adding_answers(0, most + 1, 0, 0, present);
    adding_answers(0, UINT64_MAX, 0, 0, present);
    adding_answers(ADDING_LAST, full, 0, 0, none);
    adding_answers(ADDING_LAST, full + 1, 0, 0, GONDWIZE_REFUSED_ADDED_MASS);
    adding_answers(ADDING_LAST, most, 0, 0, GONDWIZE_REFUSED_ADDED_MASS);
    adding_answers(ADDING_LAST, most, INT64_MAX, 0, present);
    adding_answers(ADDING_LAST, most + 1, 0, 0, present);
    for (size_t k = 0; k < sizeof masses / sizeof *masses; k++) {
        const uint64_t m = masses[k];
        const int64_t edge = GONDWIZE_MOST_PRESENT_MOMENTUM * (int64_t)m;
        for (size_t node = 0; node < ADDING_NODES; node += ADDING_LAST) {
            adding_answers(node, m, edge, -edge, none);
            adding_answers(node, m, -edge, edge, none);
            adding_answers(node, m, edge + 1, 0, present);
            adding_answers(node, m, -edge - 1, 0, present);
            adding_answers(node, m, 0, edge + 1, present);
            adding_answers(node, m, 0, -edge - 1, present);
            adding_answers(node, m, INT64_MIN, 0, present);
            adding_answers(node, m, 0, INT64_MAX, present);
        }
    }
}

/* Three records, cut in two at each, are added in either order. */
static void added_parts(void)
{
    enum { COUNT = 3, LENGTH = COUNT * GONDWIZE_RECORD_LENGTH };
    static uint64_t whole_mass[ADDING_NODES];
    static int64_t whole_px[ADDING_NODES], whole_py[ADDING_NODES];
    uint8_t records[LENGTH];
    for (uint16_t k = 0; k < COUNT; k++)
        same("a record of parts", gondwize_write_record(k, 1023, 100 + 9u * k, 150 - 20u * k, 5 * k - 9, 63,
                                                        2047, -40 * k, 7, -2047, 40,
                                                        records + k * GONDWIZE_RECORD_LENGTH,
                                                        GONDWIZE_RECORD_LENGTH), 0);
    same("whole", gondwize_scatter(ADDING_NX, ADDING_NY, records, LENGTH, whole_mass, ADDING_NODES,
                                   whole_px, ADDING_NODES, whole_py, ADDING_NODES), 0);
    for (size_t cut = 0; cut <= LENGTH; cut += GONDWIZE_RECORD_LENGTH) {
        for (int turn = 0; turn < 2; turn++) {
            memset(mass, 0, sizeof mass);
            memset(px, 0, sizeof px);
            memset(py, 0, sizeof py);
            for (int k = 0; k < 2; k++) {
                const int last = k != turn;
                same("part", gondwize_adding_scatter(ADDING_NX, ADDING_NY, records + (last ? cut : 0),
                                                     last ? LENGTH - cut : cut, mass, ADDING_NODES,
                                                     px, ADDING_NODES, py, ADDING_NODES), 0);
            }
            same("mass of parts", (uint64_t)memcmp(mass, whole_mass, sizeof whole_mass), 0);
            same("px of parts", (uint64_t)memcmp(px, whole_px, sizeof whole_px), 0);
            same("py of parts", (uint64_t)memcmp(py, whole_py, sizeof whole_py), 0);
        }
    }
}

/* ---- What drag and edge leave of velocities that are the same at all nodes. */

static void velocity_left(size_t kind, size_t width, size_t drag, int64_t x, int64_t y)
{
    enum { NX = 7, NY = 9 };
    for (size_t node = 0; node < NX * NY; node++) {
        mass[node] = 1;
        px[node] = -4 * 292;
        py[node] = 4 * 45;
    }
    same("left", gondwize_update(NX, NY, 44, -5, kind, width, drag, mass, NX * NY, px, NX * NY, py,
                                 NX * NY), 0);
    for (size_t j = 0; j < NY; j++) {
        for (size_t i = 0; i < NX; i++) {
            const int column = i < width || i >= NX - width, row = j < width || j >= NY - width;
            const int rests = kind == GONDWIZE_EDGE_STICKY && (column || row);
            const int64_t ux = rests || (kind == GONDWIZE_EDGE_SLIP && column) ? 0 : x;
            const int64_t uy = rests || (kind == GONDWIZE_EDGE_SLIP && row) ? 0 : y;
            same("ux that is left", (uint64_t)px[j * NX + i], (uint64_t)ux);
            same("uy that is left", (uint64_t)py[j * NX + i], (uint64_t)uy);
        }
    }
}

/*
 * After gravity the velocities are -248 and 40. A drag of 16 takes 15.5 and 2.5 of them, rounded to 16
 * and 2; one of 48 takes 46.5 and 7.5, rounded to 46 and 8.
 */
static void velocities_left(void)
{
    velocity_left(GONDWIZE_EDGE_OPEN, 0, 0, -248, 40);
    for (size_t kind = GONDWIZE_EDGE_STICKY; kind <= GONDWIZE_EDGE_SLIP; kind++) {
        for (size_t width = GONDWIZE_LEAST_WIDTH; width <= GONDWIZE_MOST_WIDTH; width++) {
            velocity_left(kind, width, 0, -248, 40);
            velocity_left(kind, width, 16, -232, 38);
            velocity_left(kind, width, 48, -202, 32);
            velocity_left(kind, width, 128, -124, 20);
            velocity_left(kind, width, GONDWIZE_MOST_DRAG, -1, 0);
        }
    }
}

/* ---- Offsets. */

static void offsets(void)
{
    const int64_t within[] = {GONDWIZE_LEAST_OFFSET, 0, GONDWIZE_MOST_OFFSET};
    const int64_t beyond[] = {GONDWIZE_LEAST_OFFSET - 1, GONDWIZE_MOST_OFFSET + 1, INT64_MIN, INT64_MAX};
    for (size_t k = 0; k < sizeof within / sizeof *within; k++) {
        int64_t w[GONDWIZE_WEIGHTS_VALUES] = {0, 0, 0};
        same("offset", gondwize_weights(within[k], w), 0);
        same("offset's weights", (uint64_t)(w[0] + w[1] + w[2]), 8192);
    }
    for (size_t k = 0; k < sizeof beyond / sizeof *beyond; k++) {
        int64_t w[GONDWIZE_WEIGHTS_VALUES] = {7, 8, 9};
        same("offset beyond", gondwize_weights(beyond[k], w), refused(GONDWIZE_REFUSED_POSITION, 0));
        same("offset beyond leaves", (uint64_t)(w[0] * 100 + w[1] * 10 + w[2]), 789);
    }
}

/* ---- Empty slices, at NULL. */

static void empty_slices(void)
{
    int64_t values[GONDWIZE_PARTICLE_VALUES];
    uint64_t number = 9;
    int64_t *x = px, *y = py;
    const uint64_t length = refused(GONDWIZE_REFUSED_LENGTH, 0);
    same("read_record", gondwize_read_record(NULL, 0, values), length);
    same("write_record", gondwize_write_record(7, 1, 64, 64, 0, 0, 0, 0, 0, 0, 1, NULL, 0), length);
    same("check_set", gondwize_check_set(4, 4, NULL, 0, &number), 0);
    same("check_set's count", number, 0);
    same("totals", gondwize_totals(4, 4, NULL, 0, values), 0);
    for (int k = 0; k < GONDWIZE_TOTALS_VALUES; k++)
        same("totals' values", (uint64_t)values[k], 0);
    same("scatter", gondwize_scatter(4, 4, NULL, 0, mass, 16, x, 16, y, 16), 0);
    same("scatter's mass", gondwize_scatter(4, 4, NULL, 0, NULL, 0, x, 16, y, 16), length);
    same("scatter's px", gondwize_scatter(4, 4, NULL, 0, mass, 16, NULL, 0, y, 16), length);
    same("scatter's py", gondwize_scatter(4, 4, NULL, 0, mass, 16, x, 16, NULL, 0), length);
    same("adding_scatter", gondwize_adding_scatter(4, 4, NULL, 0, mass, 16, x, 16, y, 16), 0);
    same("adding_scatter's mass", gondwize_adding_scatter(4, 4, NULL, 0, NULL, 0, x, 16, y, 16), length);
    same("adding_scatter's px", gondwize_adding_scatter(4, 4, NULL, 0, mass, 16, NULL, 0, y, 16), length);
    same("adding_scatter's py", gondwize_adding_scatter(4, 4, NULL, 0, mass, 16, x, 16, NULL, 0), length);
    same("update's mass", gondwize_update(4, 4, 0, 0, 0, 0, 0, NULL, 0, x, 16, y, 16), length);
    same("update's px", gondwize_update(4, 4, 0, 0, 0, 0, 0, mass, 16, NULL, 0, y, 16), length);
    same("update's py", gondwize_update(4, 4, 0, 0, 0, 0, 0, mass, 16, x, 16, NULL, 0), length);
    same("gather", gondwize_gather(4, 4, NULL, 0, x, 16, y, 16), 0);
    same("gather's ux", gondwize_gather(4, 4, NULL, 0, NULL, 0, y, 16), length);
    same("gather's uy", gondwize_gather(4, 4, NULL, 0, x, 16, NULL, 0), length);
    same("step", gondwize_step(4, 4, 1, 1, 0, 0, 0, NULL, 0, mass, 16, x, 16, y, 16), 0);
    same("step's mass", gondwize_step(4, 4, 1, 1, 0, 0, 0, NULL, 0, NULL, 0, x, 16, y, 16), length);
    same("step's px", gondwize_step(4, 4, 1, 1, 0, 0, 0, NULL, 0, mass, 16, NULL, 0, y, 16), length);
    same("step's py", gondwize_step(4, 4, 1, 1, 0, 0, 0, NULL, 0, mass, 16, x, 16, NULL, 0), length);
    same("run", gondwize_run(4, 4, 1, 1, 0, 0, 0, 3, NULL, 0, mass, 16, x, 16, y, 16, &number), 0);
    same("run's completed", number, 3);
    same("run's slices", gondwize_run(4, 4, 1, 1, 0, 0, 0, 3, NULL, 0, NULL, 0, NULL, 0, NULL, 0, &number),
         length);
    same("a refused run's completed", number, 0);
    same("read_file", gondwize_read_file(NULL, 0, values), length);
    same("write_header", gondwize_write_header(4, 4, 0, 0, 0, 0, 0, 0, 0, NULL, 0), length);
    number = 9;
    same("keep's store", gondwize_keep(NULL, 0, NULL, 0, NULL, 0), length);
    same("return's store", gondwize_return(NULL, 0, NULL, 0, NULL, 0, &number), length);
    same("forget's store", gondwize_forget(NULL, 0, NULL, 0), length);
    same("a refused return's length", number, 9);
}

/* ---- Answers and their texts. */

static void answers(void)
{
#define CHECKED(number, name, text) \
    same("constant " #name, GONDWIZE_REFUSED_##name, number); \
    same("text of " #name, (uint64_t)strcmp(gondwize_refusal_text(number), text), 0);
    GONDWIZE_REFUSALS(CHECKED)
#undef CHECKED
    same("text of 0", (uint64_t)strcmp(gondwize_refusal_text(0), "not refused"), 0);
    same("text of 25", (uint64_t)strcmp(gondwize_refusal_text(25), "unknown refusal"), 0);
    same("number of an answer", GONDWIZE_NUMBER(UINT64_C(7) << 32 | 70000), 7);
    same("place of an answer", GONDWIZE_PLACE(UINT64_C(7) << 32 | 70000), 70000);
    same("version", (uint64_t)strcmp(GONDWIZE_VERSION, "5.2.0"), 0);
    same("length of a file", GONDWIZE_FILE_LENGTH(3), 56);
    same("length of the longest file", GONDWIZE_FILE_LENGTH(GONDWIZE_MOST_RECORDS), GONDWIZE_MOST_FILE_LENGTH);
    same("length of the longest set", GONDWIZE_MOST_SET_LENGTH, 61440);
    same("length of a place", GONDWIZE_STORE_PLACE_LENGTH, 61459);
    same("length of a store", GONDWIZE_STORE_LENGTH, 245836);
    same("the page's nodes", GONDWIZE_PAGE_MOST_GRID, 256);
    same("length of the page's longest file", GONDWIZE_PAGE_MOST_FILE_LENGTH, 7691);
}

/* ---- Marks: every number of them, and those of three records, which gather, step and run leave. */

static void each_number_of_marks(void)
{
    struct record r = plain;
    for (unsigned marks = 0; marks <= UINT8_MAX; marks++) {
        r.marks = (uint8_t)marks;
        same("marks", written("marks", &r), 0);
    }
}

enum { MARKED_NX = 6, MARKED_NY = 5, MARKED_NODES = MARKED_NX * MARKED_NY, MARKED = 3,
       MARKED_LENGTH = MARKED * GONDWIZE_RECORD_LENGTH };

static const uint16_t marked_identifiers[MARKED] = {3, 7, 500};
static const uint8_t marked_with[MARKED] = {255, 0, 130};

static void same_marks(const char *what, const uint8_t *records)
{
    int64_t values[GONDWIZE_PARTICLE_VALUES];
    for (size_t k = 0; k < MARKED; k++) {
        const uint8_t *record = records + k * GONDWIZE_RECORD_LENGTH;
        same(what, gondwize_read_record(record, GONDWIZE_RECORD_LENGTH, values), 0);
        same(what, (uint64_t)values[0], marked_identifiers[k]);
        same(what, (uint64_t)values[GONDWIZE_PARTICLE_VALUES - 1], marked_with[k]);
    }
    same(what, gondwize_totals(MARKED_NX, MARKED_NY, records, MARKED_LENGTH, values), 0);
    same(what, (uint64_t)values[GONDWIZE_TOTALS_VALUES - 1], 255 + 0 + 130);
}

static uint64_t marked_run(const char *what, uint8_t *records, int64_t gx, int64_t gy, size_t steps)
{
    uint64_t completed = 9;
    const uint64_t answer = gondwize_run(MARKED_NX, MARKED_NY, gx, gy, GONDWIZE_EDGE_SLIP, 1, 3, steps,
                                         records, MARKED_LENGTH, mass, MARKED_NODES, px, MARKED_NODES,
                                         py, MARKED_NODES, &completed);
    same(what, completed == steps, answer == 0);
    same_marks(what, records);
    return GONDWIZE_NUMBER(answer);
}

static void marks_left(void)
{
    const size_t nodes = MARKED_NODES;
    uint8_t records[MARKED_LENGTH];
    for (uint8_t k = 0; k < MARKED; k++)
        same("a record with marks", gondwize_write_record(marked_identifiers[k], 5 + 90u * k, 100 + 29u * k,
                                                          140 - 9u * k, 5 - k, k - 3, 20, -300, 11 * k, 7,
                                                          marked_with[k], records + k * GONDWIZE_RECORD_LENGTH,
                                                          GONDWIZE_RECORD_LENGTH), 0);
    same_marks("marks as written", records);
    same("a step with marks", gondwize_step(MARKED_NX, MARKED_NY, 9, -30, GONDWIZE_EDGE_OPEN, 0, 0, records,
                                            sizeof records, mass, nodes, px, nodes, py, nodes), 0);
    same_marks("marks after a step", records);
    same("a gather with marks", gondwize_gather(MARKED_NX, MARKED_NY, records, sizeof records, px, nodes, py,
                                                nodes), 0);
    same_marks("marks after a gather", records);
    px[0] = INT64_MAX;
    same("a refused gather", gondwize_gather(MARKED_NX, MARKED_NY, records, sizeof records, px, nodes, py,
                                             nodes), refused(GONDWIZE_REFUSED_NODE_VELOCITY, 0));
    same_marks("marks after a refused gather", records);
    same("a run", marked_run("marks after a run", records, 9, -30, 4), 0);
    same("a refused run", marked_run("marks after a refused run", records, 9, -4097, 4),
         GONDWIZE_REFUSED_GRAVITY);
    same("a stopped run", marked_run("marks after a stopped run", records, 900, -4000, 10000),
         GONDWIZE_REFUSED_NEW_POSITION);
}

/* ---- The totals of a particle that moves, of one that turns in place, and of one at rest. */

static void totals(void)
{
    const int64_t particles[][6] = {{3, -2, 10, 200, -300, 41}, {0, 0, 0, -81, 81, 0}, {0, 0, 0, 0, 0, 0}};
    const int64_t want[][GONDWIZE_TOTALS_VALUES] = {
        {5, 15, -10, 5 * (70 * -2 - 90 * 3 - 300 - 200), 5 * (1024 * 13 + 100 + 40000 + 90000 + 1681), 0},
        {5, 0, 0, 5 * 162, 5 * 2 * 6561, 127},
        {5, 0, 0, 0, 0, 254},
    };
    for (int k = 0; k < 3; k++) {
        const int64_t *p = particles[k];
        uint8_t record[GONDWIZE_RECORD_LENGTH];
        int64_t values[GONDWIZE_TOTALS_VALUES];
        same("a record for totals", gondwize_write_record(7, 5, 70, 90, p[0], p[1], p[2], p[3], p[4], p[5],
                                                          (uint8_t)(127 * k), record, sizeof record), 0);
        same("totals", gondwize_totals(4, 5, record, sizeof record, values), 0);
        same("totals' values", (uint64_t)memcmp(values, want[k], sizeof values), 0);
    }
}

/* ---- A file of three particles, the last beyond the grid, written and read. */

static void files(void)
{
    enum { COUNT = 3, NX = 4, NY = 5 };
    uint8_t file[GONDWIZE_FILE_LENGTH(COUNT)];
    int64_t values[GONDWIZE_HEADER_VALUES];
    const int64_t want[GONDWIZE_HEADER_VALUES] = {NX, NY, -1, 1, COUNT, 2, GONDWIZE_EDGE_STICKY, 3, 9};
    const uint64_t last = GONDWIZE_LAST_PLACE(NX);
    uint64_t number = 0;
    same("header", gondwize_write_header(NX, NY, -1, 1, COUNT, 2, GONDWIZE_EDGE_STICKY, 3, 9, file,
                                         GONDWIZE_HEADER_LENGTH), 0);
    for (uint16_t k = 0; k < COUNT; k++) {
        uint8_t *at = file + GONDWIZE_FILE_LENGTH(k);
        same("record", gondwize_write_record(k, 5, last, GONDWIZE_FIRST_PLACE, 0, 0, 0, 0, 0, 0, 200, at,
                                             GONDWIZE_RECORD_LENGTH), 0);
    }
    same("file", gondwize_read_file(file, sizeof file, values), 0);
    same("file's values", (uint64_t)memcmp(values, want, sizeof values), 0);
    same("file's records", gondwize_check_set(NX, NY, file + GONDWIZE_HEADER_LENGTH,
                                              sizeof file - GONDWIZE_HEADER_LENGTH, &number), 0);
    same("file's count", number, COUNT);
    same("a byte less for each record", gondwize_read_file(file, sizeof file - COUNT, values),
         refused(GONDWIZE_REFUSED_LENGTH, 0));
    same("last record", gondwize_write_record(COUNT, 5, last + 1, GONDWIZE_FIRST_PLACE, 0, 0, 0, 0, 0, 0, 9,
                                              file + GONDWIZE_FILE_LENGTH(COUNT - 1),
                                              GONDWIZE_RECORD_LENGTH), 0);
    uint64_t answer = gondwize_read_file(file, sizeof file, values);
    same("file's refusal", GONDWIZE_NUMBER(answer), GONDWIZE_REFUSED_POSITION);
    same("its record", GONDWIZE_PLACE(answer), COUNT - 1);
    same("its values", (uint64_t)memcmp(values, want, sizeof values), 0);
}

/* ---- Stores. */

static uint8_t store[GONDWIZE_STORE_LENGTH + 1], store_before[GONDWIZE_STORE_LENGTH + 1];
static uint8_t kept[GONDWIZE_MOST_FILE_LENGTH], buffer[GONDWIZE_MOST_FILE_LENGTH + 1];

enum { PATTERN = 0xA5 };

/* The letters of a string, without its end. */
static uint64_t kept_as(const char *name, size_t records)
{
    return gondwize_keep(store, GONDWIZE_STORE_LENGTH, (const uint8_t *)name, strlen(name), kept,
                         GONDWIZE_FILE_LENGTH(records));
}

static uint64_t forgotten(const char *name)
{
    return gondwize_forget(store, GONDWIZE_STORE_LENGTH, (const uint8_t *)name, strlen(name));
}

/* A bath of so many particles on this grid, with this gravity, in `kept`. */
static void put_bath_on(size_t nx, size_t ny, size_t records, int64_t gx)
{
    same("a bath's header", gondwize_write_header(nx, ny, gx, 9, records, 12, GONDWIZE_EDGE_SLIP, 2, 7, kept,
                                                  GONDWIZE_HEADER_LENGTH), 0);
    for (size_t k = 0; k < records; k++)
        same("a bath's record", gondwize_write_record((uint16_t)k, 32, 100 + k % 900, 100 + k / 4, 1, -2, 3, -4,
                                                      5, -6, (uint8_t)(3 * k + 7),
                                                      kept + GONDWIZE_FILE_LENGTH(k),
                                                      GONDWIZE_RECORD_LENGTH), 0);
}

static void put_bath(size_t records, int64_t gx)
{
    put_bath_on(48, 48, records, gx);
}

/* A return answers so; what it writes is the bath in `kept`, and a refused one writes nothing. */
static void return_answers(const char *what, const char *name, size_t room, size_t records, uint64_t want)
{
    uint64_t length = 9;
    memset(buffer, PATTERN, sizeof buffer);
    same(what, gondwize_return(store, GONDWIZE_STORE_LENGTH, (const uint8_t *)name, strlen(name), buffer, room,
                               &length), want);
    const size_t written = want == 0 ? GONDWIZE_FILE_LENGTH(records) : 0;
    same(what, length, want == 0 ? written : 9);
    same(what, (uint64_t)memcmp(buffer, kept, written), 0);
    for (size_t k = written; k < sizeof buffer; k++)
        if (buffer[k] != PATTERN)
            same(what, k, sizeof buffer);
}

/* All three answer so to this much of the store and to a name of these bytes, and change nothing. */
static void stores_answer(const char *what, size_t room, const char *bytes, size_t count, uint64_t want)
{
    const uint8_t *name = (const uint8_t *)bytes;
    uint64_t length = 9;
    memcpy(store_before, store, sizeof store);
    memset(buffer, PATTERN, sizeof buffer);
    same(what, gondwize_keep(store, room, name, count, kept, GONDWIZE_FILE_LENGTH(1)), want);
    same(what, gondwize_return(store, room, name, count, buffer, sizeof buffer, &length), want);
    same(what, gondwize_forget(store, room, name, count), want);
    same(what, (uint64_t)memcmp(store, store_before, sizeof store), 0);
    same(what, length, 9);
    for (size_t k = 0; k < sizeof buffer; k++)
        if (buffer[k] != PATTERN)
            same(what, k, sizeof buffer);
}

static void names(void)
{
    const uint64_t malformed = refused(GONDWIZE_REFUSED_NAME, 0);
    const size_t room = GONDWIZE_STORE_LENGTH;
    memset(store, 0, sizeof store);
    put_bath(1, 5);
    same("a name of 1", kept_as("A", 1), 0);
    same("a name of 8", kept_as("ZYXABCAZ", 1), 0);
    stores_answer("no name", room, NULL, 0, malformed);
    stores_answer("a name of 9", room, "ZYXABCAZA", 9, malformed);
    stores_answer("a name and its end", room, "A", 2, malformed);
    stores_answer("a zero", room, "", 1, malformed);
    stores_answer("a gap", room, "A\0Z", 3, malformed);
    stores_answer("before A", room, "A@", 2, malformed);
    stores_answer("after Z", room, "[Z", 2, malformed);
    stores_answer("a lower case letter", room, "a", 1, malformed);
    stores_answer("a digit", room, "A1", 2, malformed);
    same("a name's beginning", forgotten("ZYX"), refused(GONDWIZE_REFUSED_NOT_HELD, 0));
    same("a name's beginning that is new", kept_as("ZYX", 1), 0);
    return_answers("a name of 1", "A", GONDWIZE_MOST_FILE_LENGTH, 1, 0);
    return_answers("a name that is not held", "B", GONDWIZE_MOST_FILE_LENGTH, 1,
                   refused(GONDWIZE_REFUSED_NOT_HELD, 0));
    return_answers("a longer buffer", "A", GONDWIZE_MOST_FILE_LENGTH + 1, 1, 0);
    return_answers("a short buffer", "A", GONDWIZE_MOST_FILE_LENGTH - 1, 1,
                   refused(GONDWIZE_REFUSED_LENGTH, 0));
    return_answers("a short buffer and no name", "", 0, 1, refused(GONDWIZE_REFUSED_LENGTH, 0));
}

/* One byte changed, and put back. */
static void byte_answers(const char *what, size_t at, uint8_t byte)
{
    const uint8_t before = store[at];
    store[at] = byte;
    stores_answer(what, GONDWIZE_STORE_LENGTH, "A", 1, refused(GONDWIZE_REFUSED_LENGTH, 0));
    stores_answer(what, GONDWIZE_STORE_LENGTH, NULL, 0, refused(GONDWIZE_REFUSED_LENGTH, 0));
    store[at] = before;
}

static void forms(void)
{
    const size_t place = GONDWIZE_STORE_PLACE_LENGTH, file = GONDWIZE_NAME_LENGTH;
    const size_t end = file + GONDWIZE_FILE_LENGTH(1), last = GONDWIZE_STORE_LENGTH - 1;
    const uint64_t length = refused(GONDWIZE_REFUSED_LENGTH, 0);
    memset(store, 0, sizeof store);
    put_bath(1, 5);
    same("a store's first", kept_as("AB", 1), 0);
    stores_answer("a byte less", last, "A", 1, length);
    stores_answer("a byte more", last + 2, "A", 1, length);
    stores_answer("one place", place, "A", 1, length);
    byte_answers("no letter", 0, 0);
    byte_answers("a lower case letter in a store", 1, 'b');
    byte_answers("a gap in a store", 3, 'C');
    byte_answers("a size", file, 0);
    byte_answers("a spare bit", file + GONDWIZE_HEADER_LENGTH - 1, kept[GONDWIZE_HEADER_LENGTH - 1] | 1);
    byte_answers("a mass", file + GONDWIZE_HEADER_LENGTH + 2, 0);
    byte_answers("a byte after the file", end, 1);
    byte_answers("a place's last byte", place - 1, 1);
    byte_answers("a free place's first byte", place, 'A');
    byte_answers("a free place's file", place + file, 1);
    byte_answers("the last byte", last, 1);
    memcpy(store + place, store, place);
    stores_answer("a name in two places", GONDWIZE_STORE_LENGTH, "A", 1, length);
    memset(store + place, 0, place);
    same("a store as before", forgotten("AB"), 0);
    for (size_t k = 0; k < sizeof store; k++)
        if (store[k] != 0)
            same("an empty store", k, sizeof store);
}

/* Four of the largest baths, a fifth, and one that is replaced by a small one. */
static void largest_baths(void)
{
    const char *const held[GONDWIZE_STORE_PLACES] = {"A", "SECOND", "ABCDEFGH", "ABC"};
    const size_t most = GONDWIZE_MOST_RECORDS, room = GONDWIZE_MOST_FILE_LENGTH;
    memset(store, 0, sizeof store);
    for (int k = 0; k < GONDWIZE_STORE_PLACES; k++) {
        put_bath(most, k);
        same("a largest bath", kept_as(held[k], most), 0);
    }
    same("a fifth", kept_as("FIFTH", most), refused(GONDWIZE_REFUSED_FULL_STORE, 0));
    same("a file that is cut", kept_as("FIFTH", most - 1), refused(GONDWIZE_REFUSED_LENGTH, 0));
    for (int k = 0; k < GONDWIZE_STORE_PLACES; k++) {
        put_bath(most, k);
        return_answers("a largest bath", held[k], room, most, 0);
    }
    put_bath(1, 77);
    same("a small bath", kept_as(held[1], 1), 0);
    return_answers("a small bath", held[1], room, 1, 0);
    for (size_t k = GONDWIZE_NAME_LENGTH + GONDWIZE_FILE_LENGTH(1); k < GONDWIZE_STORE_PLACE_LENGTH; k++)
        if (store[GONDWIZE_STORE_PLACE_LENGTH + k] != 0)
            same("a byte of the bath before", k, GONDWIZE_STORE_PLACE_LENGTH);
    same("a full store", kept_as("FIFTH", 1), refused(GONDWIZE_REFUSED_FULL_STORE, 0));
    same("forget", forgotten(held[1]), 0);
    same("forget twice", forgotten(held[1]), refused(GONDWIZE_REFUSED_NOT_HELD, 0));
    same("a place that is free again", kept_as("FIFTH", 1), 0);
    same("its name", (uint64_t)memcmp(store + GONDWIZE_STORE_PLACE_LENGTH, "FIFTH\0\0", GONDWIZE_NAME_LENGTH),
         0);
}

/* ---- The lesson page: each of its calls at its limits, and the bench's with the same parameters. */

struct calls {
    uint64_t (*check_set)(size_t, size_t, const uint8_t *, size_t, uint64_t *);
    uint64_t (*totals)(size_t, size_t, const uint8_t *, size_t, int64_t *);
    uint64_t (*scatter)(size_t, size_t, const uint8_t *, size_t, uint64_t *, size_t, int64_t *, size_t,
                        int64_t *, size_t);
    uint64_t (*adding_scatter)(size_t, size_t, const uint8_t *, size_t, uint64_t *, size_t, int64_t *, size_t,
                               int64_t *, size_t);
    uint64_t (*update)(size_t, size_t, int64_t, int64_t, size_t, size_t, size_t, const uint64_t *, size_t,
                       int64_t *, size_t, int64_t *, size_t);
    uint64_t (*gather)(size_t, size_t, uint8_t *, size_t, const int64_t *, size_t, const int64_t *, size_t);
    uint64_t (*step)(size_t, size_t, int64_t, int64_t, size_t, size_t, size_t, uint8_t *, size_t, uint64_t *,
                     size_t, int64_t *, size_t, int64_t *, size_t);
    uint64_t (*run)(size_t, size_t, int64_t, int64_t, size_t, size_t, size_t, size_t, uint8_t *, size_t,
                    uint64_t *, size_t, int64_t *, size_t, int64_t *, size_t, uint64_t *);
    uint64_t (*read_file)(const uint8_t *, size_t, int64_t *);
    uint64_t (*keep)(uint8_t *, size_t, const uint8_t *, size_t, const uint8_t *, size_t);
};

#define CALLS(prefix) \
    {prefix##check_set, prefix##totals, prefix##scatter, prefix##adding_scatter, prefix##update, \
     prefix##gather, prefix##step, prefix##run, prefix##read_file, prefix##keep}
static const struct calls bench = CALLS(gondwize_), page = CALLS(gondwize_page_);
#undef CALLS

static uint8_t set_before[sizeof set];

/* What the calls of a set are given: the first bytes of `set`, and buffers of so many nodes. */
struct given {
    size_t nx, ny, length, mass, px, py;
    int64_t gx;
    size_t kind, drag, steps;
};

static struct given given(size_t nx, size_t ny, size_t records)
{
    const size_t nodes = nx * ny;
    const struct given g = {nx, ny, records * GONDWIZE_RECORD_LENGTH, nodes, nodes, nodes, 0,
                            GONDWIZE_EDGE_OPEN, 0, 2};
    return g;
}

/* Particles at rest, so many, and velocities of 0 for a gather. */
static void put_set(size_t records)
{
    for (size_t k = 0; k < records; k++)
        put(k, 1 + k % 31, 64 + k % 90, 64 + k % 80);
    memcpy(set_before, set, sizeof set);
    memset(mass, 0, sizeof mass);
    memset(px, 0, sizeof px);
    memset(py, 0, sizeof py);
}

/* A refused call has left set and grids. */
static void left(const char *what, uint64_t answer)
{
    if (answer == 0)
        return;
    same(what, (uint64_t)memcmp(set, set_before, sizeof set), 0);
    for (size_t k = 0; k < GONDWIZE_MOST_GRID; k++)
        same(what, mass[k] | (uint64_t)px[k] | (uint64_t)py[k], 0);
}

/* Every call of a set answers so, one after the other, but those of no grid where the grids are wrong. */
static void set_calls_answer(const char *what, const struct calls *by, const struct given *g, uint64_t want,
                             uint64_t without_grids)
{
    const size_t records = g->length / GONDWIZE_RECORD_LENGTH;
    int64_t values[GONDWIZE_TOTALS_VALUES] = {7, 7, 7, 7, 7, 7};
    uint64_t number = 9, answer;
    put_set(records);
    same(what, by->check_set(g->nx, g->ny, set, g->length, &number), without_grids);
    same(what, number, without_grids == 0 ? records : 9);
    same(what, by->totals(g->nx, g->ny, set, g->length, values), without_grids);
    same(what, values[0] == 7, without_grids != 0);
    answer = by->scatter(g->nx, g->ny, set, g->length, mass, g->mass, px, g->px, py, g->py);
    same(what, answer, want);
    left(what, answer);
    answer = by->adding_scatter(g->nx, g->ny, set, g->length, mass, g->mass, px, g->px, py, g->py);
    same(what, answer, want);
    left(what, answer);
    if (g->mass == g->nx * g->ny) {
        answer = by->gather(g->nx, g->ny, set, g->length, px, g->px, py, g->py);
        same(what, answer, want);
        left(what, answer);
    }
    answer = by->step(g->nx, g->ny, g->gx, 0, g->kind, 0, g->drag, set, g->length, mass, g->mass, px, g->px, py,
                      g->py);
    same(what, answer, want);
    left(what, answer);
    number = 9;
    answer = by->run(g->nx, g->ny, g->gx, 0, g->kind, 0, g->drag, g->steps, set, g->length, mass, g->mass, px,
                     g->px, py, g->py, &number);
    same(what, answer, want);
    same(what, number, answer == 0 ? g->steps : 0);
    left(what, answer);
}

/* The page's calls answer so to a set, and the bench takes it. */
static void page_set_answers(const char *what, size_t nx, size_t ny, size_t records, uint64_t want)
{
    const struct given g = given(nx, ny, records);
    set_calls_answer(what, &page, &g, want, want);
    set_calls_answer(what, &bench, &g, 0, 0);
}

static void page_sets(void)
{
    const size_t least = GONDWIZE_LEAST_NODES, most = GONDWIZE_PAGE_MOST_NODES;
    const size_t many = GONDWIZE_PAGE_MOST_RECORDS;
    const uint64_t size = refused(GONDWIZE_REFUSED_GRID_SIZE, 0), count = refused(GONDWIZE_REFUSED_COUNT, 0);
    const uint64_t length = refused(GONDWIZE_REFUSED_LENGTH, 0);
    page_set_answers("the page's widest grid", most, least, 3, 0);
    page_set_answers("the page's highest grid", least, most, 3, 0);
    page_set_answers("a grid too wide for the page", most + 1, least, 3, size);
    page_set_answers("a grid too high for the page", least, most + 1, 3, size);
    page_set_answers("size before count", most + 1, least, many + 1, size);
    page_set_answers("the page's largest set", most, most, many, 0);
    page_set_answers("a set too large for the page", most, least, many + 1, count);
    page_set_answers("the bench's largest set", least, most, GONDWIZE_MOST_RECORDS, count);

    struct given g = given(least, most, GONDWIZE_MOST_RECORDS + 1);
    set_calls_answer("a set too long for both", &page, &g, length, length);
    g = given(most, least, many + 1);
    g.length++;
    set_calls_answer("length before count", &page, &g, length, length);
    g = given(most, least, many + 1);
    g.mass--;
    set_calls_answer("masses before count", &page, &g, length, count);
    g = given(most, least, many + 1);
    g.px--;
    set_calls_answer("a grid before count", &page, &g, length, count);
    g = given(most, least, many + 1);
    g.py++;
    set_calls_answer("another grid before count", &page, &g, length, count);
    g = given(most, least, many + 1);
    g.gx = GONDWIZE_MOST_GRAVITY + 1;
    g.kind = GONDWIZE_EDGE_SLIP + 1;
    g.drag = GONDWIZE_MOST_DRAG + 1;
    g.steps = GONDWIZE_MOST_STEPS + 1;
    set_calls_answer("count before settings", &page, &g, count, count);
}

static void page_updates(void)
{
    const size_t sizes[][2] = {{16, 4}, {4, 16}, {17, 4}, {4, 17}, {16, 3}, {48, 48}};
    for (size_t k = 0; k < sizeof sizes / sizeof *sizes; k++) {
        const size_t nx = sizes[k][0], ny = sizes[k][1], nodes = nx * ny;
        const size_t most = GONDWIZE_PAGE_MOST_NODES, least = GONDWIZE_LEAST_NODES;
        const int small = nx <= most && ny <= most && ny >= least;
        for (size_t node = 0; node < nodes; node++) {
            mass[node] = 1;
            px[node] = 4;
            py[node] = -4;
        }
        same("the page's update", page.update(nx, ny, 5, -6, 0, 0, 0, mass, nodes, px, nodes, py, nodes),
             small ? 0 : refused(GONDWIZE_REFUSED_GRID_SIZE, 0));
        for (size_t node = 0; node < nodes; node++) {
            same("the page's ux", (uint64_t)px[node], (uint64_t)(small ? 6 : 4));
            same("the page's uy", (uint64_t)py[node], (uint64_t)(small ? -7 : -4));
        }
        same("the bench's update", bench.update(nx, ny, 5, -6, 0, 0, 0, mass, nodes, px, nodes, py, nodes),
             ny < least ? refused(GONDWIZE_REFUSED_GRID_SIZE, 0) : 0);
    }
}

/* A file of this bath: reading and keeping answer so to the page, and the bench takes it. */
static void page_file_answers(const char *what, size_t nx, size_t ny, size_t records, uint64_t want)
{
    const size_t length = GONDWIZE_FILE_LENGTH(records), room = GONDWIZE_MOST_FILE_LENGTH;
    const uint8_t name[] = {'P', 'A', 'G', 'E'};
    int64_t values[GONDWIZE_HEADER_VALUES] = {7};
    put_bath_on(nx, ny, records, 5);
    same(what, page.read_file(kept, length, values), want);
    same(what, (uint64_t)values[0], want == 0 ? nx : 7);
    memcpy(store_before, store, sizeof store);
    same(what, page.keep(store, GONDWIZE_STORE_LENGTH, name, sizeof name, kept, length), want);
    same(what, memcmp(store, store_before, sizeof store) == 0, want != 0);
    same(what, page.keep(store, GONDWIZE_STORE_LENGTH, name, 0, kept, length), refused(GONDWIZE_REFUSED_NAME, 0));
    same(what, page.keep(store, sizeof store, name, 0, kept, length), refused(GONDWIZE_REFUSED_LENGTH, 0));
    same(what, bench.read_file(kept, length, values), 0);
    same(what, bench.keep(store, GONDWIZE_STORE_LENGTH, name, sizeof name, kept, length), 0);
    return_answers(what, "PAGE", room, records, 0);
    same(what, forgotten("PAGE"), 0);
}

/* In a store that holds baths of the bench, one of them with more records than the page takes. */
static void page_files(void)
{
    const size_t most = GONDWIZE_PAGE_MOST_NODES, many = GONDWIZE_PAGE_MOST_RECORDS;
    const uint64_t size = refused(GONDWIZE_REFUSED_GRID_SIZE, 0), count = refused(GONDWIZE_REFUSED_COUNT, 0);
    memset(store, 0, sizeof store);
    put_bath(GONDWIZE_MOST_RECORDS, 3);
    same("the bench's largest bath", kept_as("LARGE", GONDWIZE_MOST_RECORDS), 0);
    page_file_answers("the page's largest file", most, 12, many, 0);
    page_file_answers("a high file of the page", 12, most, many, 0);
    page_file_answers("a file too wide for the page", most + 1, 12, 1, size);
    page_file_answers("a file too high for the page", 12, most + 1, many + 1, size);
    page_file_answers("a file too large for the page", most, 12, many + 1, count);
    put_bath_on(most, 12, many + 1, GONDWIZE_MOST_GRAVITY);
    int64_t values[GONDWIZE_HEADER_VALUES];
    same("count before length", page.read_file(kept, GONDWIZE_HEADER_LENGTH, values), count);
    kept[GONDWIZE_HEADER_LENGTH - 1] |= 1;
    same("count before spare bits", page.read_file(kept, GONDWIZE_FILE_LENGTH(many + 1), values), count);
    kept[GONDWIZE_HEADER_LENGTH - 2] |= 0xF0;
    same("edge before count", page.read_file(kept, GONDWIZE_FILE_LENGTH(many + 1), values),
         refused(GONDWIZE_REFUSED_EDGE, 0));
}

int main(void)
{
    records();
    headers();
    runs();
    edges();
    drags();
    orders();
    places();
    total_mass();
    nodes();
    added_nodes();
    added_parts();
    velocities_left();
    offsets();
    empty_slices();
    each_number_of_marks();
    marks_left();
    totals();
    answers();
    files();
    names();
    forms();
    largest_baths();
    page_sets();
    page_updates();
    page_files();
    if (failures != 0)
        printf("%d answers differ\n", failures);
    return failures != 0;
}
