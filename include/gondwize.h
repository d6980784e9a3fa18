/*
 * Gondwize: two-dimensional APIC (affine particle-in-cell) in whole numbers.
 *
 * Link target/staticlib/libgondwize.a, which `tools/library` writes.
 *
 * Slices. A slice is a pointer and its number of elements. The pointer is aligned for its type and
 * leads to as many initialised elements as the number says; where the number is 0 nothing is read or
 * written through it, and it may be NULL. An array parameter, `values[11]`, and a pointer to one
 * number, `count`, `completed` and `length`, are never NULL. What a function writes to overlaps nothing
 * else of the call. Nothing is kept after a call, and no function has any state, so calls may run at
 * the same time on memory of their own.
 *
 * Answers. Every function answers one number:
 *     0                        there is a result
 *     number * 2^32 + place    refused: the number of the limit that is broken, as in
 *                              GONDWIZE_REFUSALS, and the record (for 11, 12, 20 and 21 the node)
 *                              counted from 0, or 0 where there is none; GONDWIZE_NUMBER and
 *                              GONDWIZE_PLACE take it apart
 * A refused call leaves everything as it was, unless said. Checks run in the order listed. A number
 * is refused and never cut where a limit is listed for it; a record's identifier and its marks have no
 * limit, and are numbers of 16 and of 8 bits.
 *
 * Stack. The most that a call needs, from its caller's frame down, by the number of its particles, in
 * kB of 1,000 bytes. A call that takes no set stands under 0; one that ends with 13, 14, 15, 20 or 21
 * counts by its particles and not as refused. A keep, a return and a forget count by the particles of
 * their bath, whatever else the store holds. The lesson page's run and step need at most 23.0 kB, where the
 * bench's need up to 152.1: 129.1 kB less. Its other calls need what those without page_ do.
 *
 *     kB                        refused        0        1    to 64   to 512 to 4,096
 *     gondwize_run                  3.2      4.3      4.3      4.3     23.0    152.1
 *     gondwize_run, no step         3.2      4.3      4.3      4.3     23.0    152.1
 *     gondwize_step                 3.2      4.3      4.3      4.3     23.0    152.1
 *     gondwize_page_run             3.2      4.3      4.3      4.3     23.0
 *     .. no step                    3.2      4.3      4.3      4.3     23.0
 *     gondwize_page_step            3.2      4.3      4.3      4.3     23.0
 *     gondwize_scatter              0.5      2.6      2.6      2.6      2.6      2.6
 *     gondwize_adding_scatter       8.3     67.6     67.6     67.6     67.6     67.6
 *     .. to 320 nodes               8.3     10.5     10.5     10.5     10.5     10.5
 *     gondwize_update               0.4      0.5
 *     gondwize_gather               1.7      4.0      4.0      4.0     77.9     77.9
 *     gondwize_check_set            0.5      0.5      0.5      0.5      0.5      0.5
 *     gondwize_totals               0.3      0.3      0.3      0.3      0.3      0.3
 *     gondwize_weights              0.2      0.2
 *     gondwize_read_record          0.2      0.2
 *     gondwize_write_record         0.2      0.2
 *     gondwize_read_file            0.5      0.5      0.5      0.5      0.5      0.5
 *     gondwize_write_header         0.2      0.2
 *     gondwize_keep                 0.8      0.8      0.8      0.8      0.8      0.8
 *     gondwize_return               0.6      0.6      0.6      0.6      0.6      0.6
 *     gondwize_forget               0.6      0.6      0.6      0.6      0.6      0.6
 */
#ifndef GONDWIZE_H
#define GONDWIZE_H

#include <stddef.h>
#include <stdint.h>

#define GONDWIZE_VERSION "5.2.0"
#define GONDWIZE_VERSION_MAJOR 5
#define GONDWIZE_VERSION_MINOR 2
#define GONDWIZE_VERSION_PATCH 0

/* An answer that must be looked at, and an array of at least so many elements. */
#if defined(__cplusplus) && __cplusplus >= 201703L
#define GONDWIZE_MUST_USE [[nodiscard]]
#elif defined(__STDC_VERSION__) && __STDC_VERSION__ >= 202311L
#define GONDWIZE_MUST_USE [[nodiscard]]
#elif defined(__GNUC__)
#define GONDWIZE_MUST_USE __attribute__((warn_unused_result))
#else
#define GONDWIZE_MUST_USE
#endif

#if defined(__STDC_VERSION__) && __STDC_VERSION__ >= 199901L && !defined(__cplusplus)
#define GONDWIZE_AT_LEAST(count) static count
#else
#define GONDWIZE_AT_LEAST(count) count
#endif

/* ---- Limits. */

/* Lengths in bytes: a record, a header, the longest set, a file of so many records, the longest. */
#define GONDWIZE_RECORD_LENGTH 15
#define GONDWIZE_HEADER_LENGTH 11
#define GONDWIZE_MOST_RECORDS 4096
#define GONDWIZE_MOST_SET_LENGTH (GONDWIZE_RECORD_LENGTH * GONDWIZE_MOST_RECORDS)
#define GONDWIZE_FILE_LENGTH(count) (GONDWIZE_HEADER_LENGTH + GONDWIZE_RECORD_LENGTH * (size_t)(count))
#define GONDWIZE_MOST_FILE_LENGTH (GONDWIZE_HEADER_LENGTH + GONDWIZE_MOST_SET_LENGTH)

/* A store: the longest name, places, and lengths in bytes: of a place, of a store. */
#define GONDWIZE_NAME_LENGTH 8
#define GONDWIZE_STORE_PLACES 4
#define GONDWIZE_STORE_PLACE_LENGTH (GONDWIZE_NAME_LENGTH + GONDWIZE_MOST_FILE_LENGTH)
#define GONDWIZE_STORE_LENGTH (GONDWIZE_STORE_PLACES * GONDWIZE_STORE_PLACE_LENGTH)

/* How many values a function hands back. */
#define GONDWIZE_PARTICLE_VALUES 11
#define GONDWIZE_TOTALS_VALUES 6
#define GONDWIZE_WEIGHTS_VALUES 3
#define GONDWIZE_HEADER_VALUES 9

/* The grid: nodes along an axis, nodes in all, and the first and the last place on an axis of so many. */
#define GONDWIZE_LEAST_NODES 4
#define GONDWIZE_MOST_NODES 48
#define GONDWIZE_MOST_GRID (GONDWIZE_MOST_NODES * GONDWIZE_MOST_NODES)
#define GONDWIZE_SPACING 64
#define GONDWIZE_FIRST_PLACE 32
#define GONDWIZE_LAST_PLACE(nodes) (GONDWIZE_SPACING * ((nodes) - 1) - 33)
#define GONDWIZE_LEAST_OFFSET (-32)
#define GONDWIZE_MOST_OFFSET 31

/*
 * Velocities, entries of B and gravity lie between the number here and its negative, and so does the
 * momentum of a node that is added to, for each unit of its mass.
 */
#define GONDWIZE_LEAST_MASS 1
#define GONDWIZE_MOST_MASS 1023
#define GONDWIZE_MOST_TOTAL_MASS 131072
#define GONDWIZE_MOST_POSITION 4095
#define GONDWIZE_MOST_VELOCITY 63
#define GONDWIZE_MOST_AFFINE 2047
#define GONDWIZE_MOST_GRAVITY 4096
#define GONDWIZE_MOST_STEPS 10000
#define GONDWIZE_MOST_NODE_MASS (UINT64_C(1) << 43)
#define GONDWIZE_MOST_PRESENT_MOMENTUM 457536
#define GONDWIZE_MOST_NODE_VELOCITY 131072

/*
 * The kinds of edge. An open edge has width 0; the others have a band, the outermost columns and rows
 * to their width.
 */
#define GONDWIZE_EDGE_OPEN 0
#define GONDWIZE_EDGE_STICKY 1
#define GONDWIZE_EDGE_SLIP 2
#define GONDWIZE_LEAST_WIDTH 1
#define GONDWIZE_MOST_WIDTH 3

/* Drag, in 256ths of a node's velocity per step. */
#define GONDWIZE_MOST_DRAG 255

/* The lesson page: the most nodes along an axis, nodes in all, records, and the length of the longest file. */
#define GONDWIZE_PAGE_MOST_NODES 16
#define GONDWIZE_PAGE_MOST_GRID (GONDWIZE_PAGE_MOST_NODES * GONDWIZE_PAGE_MOST_NODES)
#define GONDWIZE_PAGE_MOST_RECORDS 512
#define GONDWIZE_PAGE_MOST_FILE_LENGTH \
    (GONDWIZE_HEADER_LENGTH + GONDWIZE_RECORD_LENGTH * GONDWIZE_PAGE_MOST_RECORDS)

/* ---- Refusals. */

/*
 * Number, name, and what is broken. A wrong length is: a record not 15, a header not 11, a set not a
 * multiple of 15 or above 61,440, a file shorter than 11 or not 11 + 15 * count, a grid buffer not
 * nx * ny, a return's buffer below 61,451, a store not 245,836. A position is off the grid, or, in
 * writing a record, above 4095.
 */
#define GONDWIZE_REFUSALS(X) \
    X(1, LENGTH, "a record, set, grid, file, buffer or store has the wrong length, or a store the wrong form") \
    X(2, GRID_SIZE, "nx or ny is not 4 to 48, or for the lesson page 4 to 16") \
    X(3, COUNT, "the count is above 4096, or for the lesson page above 512") \
    X(4, MASS, "a mass is not 1 to 1023") \
    X(5, VELOCITY, "a velocity is not -63 to 63") \
    X(6, AFFINE, "an entry of B is not -2047 to 2047") \
    X(7, POSITION, "a position is off the grid, or an offset is not -32 to 31") \
    X(8, IDENTIFIER, "an identifier is not above the one before") \
    X(9, TOTAL_MASS, "the mass so far is above 131072") \
    X(10, GRAVITY, "gravity is not -4096 to 4096") \
    X(11, NODE_MASS, "a node's mass is above 2^43, or 0 with a momentum") \
    X(12, NODE_VELOCITY, "a node's velocity is not -131072 to 131072") \
    X(13, NEW_VELOCITY, "a new velocity is not -63 to 63") \
    X(14, NEW_AFFINE, "a new entry of B is not -2047 to 2047") \
    X(15, NEW_POSITION, "a new position is off the grid") \
    X(16, SPARE_BITS, "a file's spare bits are not zero") \
    X(17, STEPS, "more than 10000 steps") \
    X(18, EDGE, "the edge is neither open with width 0 nor sticky or slip with width 1 to 3") \
    X(19, DRAG, "drag is above 255") \
    X(20, PRESENT_NODE, "a present node's mass is above 2^43, or its momentum beyond 457536 times its mass") \
    X(21, ADDED_MASS, "a node's mass would pass 2^43") \
    X(22, NAME, "a name is not 1 to 8 letters A to Z") \
    X(23, NOT_HELD, "the name is not held") \
    X(24, FULL_STORE, "four other names are held")

/* GONDWIZE_REFUSED_LENGTH = 1 and so on. */
#define GONDWIZE_REFUSAL_CONSTANT(number, name, text) GONDWIZE_REFUSED_##name = number,
enum gondwize_refusal {
    GONDWIZE_NOT_REFUSED = 0,
    GONDWIZE_REFUSALS(GONDWIZE_REFUSAL_CONSTANT)
};
#undef GONDWIZE_REFUSAL_CONSTANT

#define GONDWIZE_NUMBER(answer) ((uint32_t)((uint64_t)(answer) >> 32))
#define GONDWIZE_PLACE(answer) ((uint32_t)(answer))

#ifdef __cplusplus
extern "C" {
#endif

/* What a refusal's number says, in English. */
static inline const char *gondwize_refusal_text(uint32_t number)
{
#define GONDWIZE_REFUSAL_TEXT(known, name, text) \
    case known: \
        return text;
    switch (number) {
    case 0:
        return "not refused";
    GONDWIZE_REFUSALS(GONDWIZE_REFUSAL_TEXT)
    default:
        return "unknown refusal";
    }
#undef GONDWIZE_REFUSAL_TEXT
}

/* ---- Records. */

/*
 * Reads a particle record. `values`: identifier, mass, x, y, vx, vy, Bxx, Bxy, Byx, Byy, marks.
 * Refused: 1 length not 15; 4 mass zero; 5 a velocity of -64; 6 a B entry of -2048.
 */
GONDWIZE_MUST_USE uint64_t gondwize_read_record(const uint8_t *bytes, size_t bytes_length,
                                                int64_t values[GONDWIZE_AT_LEAST(11)]);

/*
 * Writes a particle record into `bytes`. Marks are any number of 8 bits. They travel with their
 * record: no other function changes them, whatever it answers.
 * Refused: 1 length not 15; 4 mass not 1 to 1023; 5 a velocity out of range; 6 a B entry out of
 * range; 7 x or y above 4095.
 */
GONDWIZE_MUST_USE uint64_t gondwize_write_record(uint16_t identifier, uint64_t mass,
                                                 uint64_t x, uint64_t y, int64_t vx, int64_t vy,
                                                 int64_t bxx, int64_t bxy,
                                                 int64_t byx, int64_t byy, uint8_t marks,
                                                 uint8_t *bytes, size_t bytes_length);

/* ---- Sets: records one after the other. */

/*
 * Checks a set. `count`: the number of records.
 * Refused: 2; 1 length not a multiple of 15 or above 61,440; then for each record 4, 5, 6, 7, 8, 9.
 */
GONDWIZE_MUST_USE uint64_t gondwize_check_set(size_t nx, size_t ny,
                                              const uint8_t *records, size_t records_length,
                                              uint64_t *count);

/*
 * The sums of a set. `values`: mass, px, py, spin, motion, marks. Spin is the angular momentum about
 * node (0, 0), affine part included. Motion is the sum of
 * m*(1024*(vx*vx + vy*vy) + Bxx*Bxx + Bxy*Bxy + Byx*Byx + Byy*Byy), which is 0 exactly where every
 * velocity and every entry of B is, and below 2^42 in every set.
 * Refused as gondwize_check_set.
 */
GONDWIZE_MUST_USE uint64_t gondwize_totals(size_t nx, size_t ny,
                                           const uint8_t *records, size_t records_length,
                                           int64_t values[GONDWIZE_AT_LEAST(6)]);

/* ---- Steps. Rounding is to nearest, a half to the even neighbour. */

/*
 * The weights of one axis for a particle at offset q from its nearest node. `values`: those of the
 * lower, the nearest and the upper node; they total 8192. Refused: 7 q outside -32 to 31.
 */
GONDWIZE_MUST_USE uint64_t gondwize_weights(int64_t q, int64_t values[GONDWIZE_AT_LEAST(3)]);

/*
 * Particle-to-grid transfer: `mass`, `px` and `py` then hold node masses and momenta of the set,
 * whatever they held. Node (i, j) has index j * nx + i.
 * Refused: 2; 1, also where a grid buffer is not nx * ny long; then the set.
 */
GONDWIZE_MUST_USE uint64_t gondwize_scatter(size_t nx, size_t ny,
                                            const uint8_t *records, size_t records_length,
                                            uint64_t *mass, size_t mass_length,
                                            int64_t *px, size_t px_length,
                                            int64_t *py, size_t py_length);

/*
 * Particle-to-grid transfer onto what the grids hold: node masses and momenta of the set are added to
 * those in `mass`, `px` and `py`. On grids of zeros it does what gondwize_scatter does. Parts of an
 * accepted set that together have each record once, each part in the set's order, give the set's grids
 * when they are added to grids of zeros, in any order, and none of them is refused. What this leaves
 * gondwize_update does not refuse with 11 or 12.
 * Refused: 2; 1, also for the grid buffers; the set; then for each node 20, which looks at what the
 * grids hold, and 21, which looks at the sum.
 */
GONDWIZE_MUST_USE uint64_t gondwize_adding_scatter(size_t nx, size_t ny,
                                                   const uint8_t *records, size_t records_length,
                                                   uint64_t *mass, size_t mass_length,
                                                   int64_t *px, size_t px_length,
                                                   int64_t *py, size_t py_length);

/*
 * Velocity takes the momentum's place in `px` and `py`: momentum / (4 * mass) rounded, plus gravity,
 * in 256ths; 0 at a node without mass. A velocity u then loses u * drag / 256, rounded. Then the edge,
 * by its kind and width: nodes in a sticky edge's band get 0 on both axes; nodes in the columns of a
 * slip edge's band get 0 on x, those in its rows 0 on y.
 * Refused: 2; 1 for the grid buffers; 10; 18; 19; then for each node 11, 12, which looks at the
 * velocity after gravity and before drag.
 */
GONDWIZE_MUST_USE uint64_t gondwize_update(size_t nx, size_t ny, int64_t gx, int64_t gy,
                                           size_t kind, size_t width, size_t drag,
                                           const uint64_t *mass, size_t mass_length,
                                           int64_t *px, size_t px_length,
                                           int64_t *py, size_t py_length);

/*
 * Grid-to-particle transfer from node velocities: the records then hold the moved particles, their
 * velocities and B rounded.
 * Refused: 2; 1, also for the velocity buffers; the set; 12 for each node; then for each record 13,
 * 14, 15. No record moves if any is refused.
 */
GONDWIZE_MUST_USE uint64_t gondwize_gather(size_t nx, size_t ny,
                                           uint8_t *records, size_t records_length,
                                           const int64_t *ux, size_t ux_length,
                                           const int64_t *uy, size_t uy_length);

/*
 * One step: scatter, update, gather.
 * Refused: 2; 1, also for the grid buffers; 10; 18; 19; the set; then for each record 13, 14, 15,
 * where the records are as they were and the grids hold masses and updated velocities.
 */
GONDWIZE_MUST_USE uint64_t gondwize_step(size_t nx, size_t ny, int64_t gx, int64_t gy,
                                         size_t kind, size_t width, size_t drag,
                                         uint8_t *records, size_t records_length,
                                         uint64_t *mass, size_t mass_length,
                                         int64_t *px, size_t px_length,
                                         int64_t *py, size_t py_length);

/*
 * The step repeated, as often as wanted or until one is refused. `completed`: the number of
 * completed steps, also where the run is refused. The records are those of the last completed step,
 * the grids hold masses and updated velocities of the last step tried; an accepted run of 0 steps
 * touches neither.
 * Refused: 2; 1, also for the grid buffers; 10; 18; 19; 17; the set; then 13, 14, 15 by the step
 * that stopped it.
 */
GONDWIZE_MUST_USE uint64_t gondwize_run(size_t nx, size_t ny, int64_t gx, int64_t gy,
                                        size_t kind, size_t width, size_t drag, size_t steps,
                                        uint8_t *records, size_t records_length,
                                        uint64_t *mass, size_t mass_length,
                                        int64_t *px, size_t px_length,
                                        int64_t *py, size_t py_length, uint64_t *completed);

/* ---- Files. */

/*
 * Reads a bath file, whose records lie from byte 11 on. `values`: nx, ny, gx, gy, count, steps, kind,
 * width, drag.
 * Refused: 1 shorter than 11; 2; 10; 18; 3; 17; 16; 1 length not 11 + 15 * count; then the set.
 */
GONDWIZE_MUST_USE uint64_t gondwize_read_file(const uint8_t *bytes, size_t bytes_length,
                                              int64_t values[GONDWIZE_AT_LEAST(9)]);

/*
 * Writes a bath file's header into `bytes`, spare bits zero.
 * Refused: 1 length not 11; 2; 10; 18; 19; 3; 17.
 */
GONDWIZE_MUST_USE uint64_t gondwize_write_header(size_t nx, size_t ny, int64_t gx, int64_t gy,
                                                 size_t count, size_t steps,
                                                 size_t kind, size_t width, size_t drag,
                                                 uint8_t *bytes, size_t bytes_length);

/* ---- Stores: baths kept under a name. */

/*
 * A store is 245,836 bytes of the caller's: four places of 61,459 bytes one after the other. A place is
 * free where all of its bytes are zero. Else its first 8 bytes are a name, 1 to 8 letters A to Z with
 * zeros after them; then comes a bath file that gondwize_read_file accepts, of 11 + 15 * count bytes, and
 * zeros after it to the place's end. No name stands in two places. A store of zeros is empty. A store
 * that is not of this length and form is refused with 1 before all else, and a call leaves one that is
 * of it so. A name is given as its letters and how many: no zero ends it, so the number is that of
 * strlen and not of sizeof.
 */

/*
 * Keeps a bath file under a name: in the place that holds the name, where nothing of the bath before is
 * left, or else in the lowest that is free. Other places stay as they are.
 * Refused: 1 the store; 22; as gondwize_read_file; 24 where the name is not held and no place is free.
 */
GONDWIZE_MUST_USE uint64_t gondwize_keep(uint8_t *store, size_t store_length,
                                         const uint8_t *name, size_t name_length,
                                         const uint8_t *file, size_t file_length);

/*
 * Returns to the bath that is held under a name: its file stands at the front of `buffer`, the rest of
 * which stays as it is. `length`: that of the file. So gondwize_read_file takes `buffer` with `length`,
 * and the records are what is behind the first 11 bytes.
 * Refused: 1 the store; 1 `buffer_length` below 61,451; 22; 23.
 */
GONDWIZE_MUST_USE uint64_t gondwize_return(const uint8_t *store, size_t store_length,
                                           const uint8_t *name, size_t name_length,
                                           uint8_t *buffer, size_t buffer_length, uint64_t *length);

/*
 * Forgets the bath that is held under a name: every byte of its place is zero.
 * Refused: 1 the store; 22; 23.
 */
GONDWIZE_MUST_USE uint64_t gondwize_forget(uint8_t *store, size_t store_length,
                                           const uint8_t *name, size_t name_length);

/* ---- The lesson page: the calls above that check a size, a set or a file, for small baths. */

/*
 * Each does what the function without page_ does, with the same parameters, and for a bath of at most 512
 * records and 16 nodes each way its outcome is the same, refused or not. Its limits are smaller:
 *     2    nx or ny is not 4 to 16;
 *     3    more than 512 records: in a file at the place of 3; in a set that is given directly after 2 and all
 *          of 1, the grid buffers' too, and before what follows.
 * The length of a set is judged as before, so one of 513 to 4,096 records is refused with 3 and a longer one
 * with 1. A store's form is judged as before, and so it may hold baths that the page does not take; of
 * gondwize_page_keep the file has the page's limits. A buffer that is returned into has at least
 * GONDWIZE_MOST_FILE_LENGTH bytes, whatever the bath.
 */
GONDWIZE_MUST_USE uint64_t gondwize_page_check_set(size_t nx, size_t ny,
                                                   const uint8_t *records, size_t records_length,
                                                   uint64_t *count);

GONDWIZE_MUST_USE uint64_t gondwize_page_totals(size_t nx, size_t ny,
                                                const uint8_t *records, size_t records_length,
                                                int64_t values[GONDWIZE_AT_LEAST(6)]);

GONDWIZE_MUST_USE uint64_t gondwize_page_scatter(size_t nx, size_t ny,
                                                 const uint8_t *records, size_t records_length,
                                                 uint64_t *mass, size_t mass_length,
                                                 int64_t *px, size_t px_length,
                                                 int64_t *py, size_t py_length);

GONDWIZE_MUST_USE uint64_t gondwize_page_adding_scatter(size_t nx, size_t ny,
                                                        const uint8_t *records, size_t records_length,
                                                        uint64_t *mass, size_t mass_length,
                                                        int64_t *px, size_t px_length,
                                                        int64_t *py, size_t py_length);

GONDWIZE_MUST_USE uint64_t gondwize_page_update(size_t nx, size_t ny, int64_t gx, int64_t gy,
                                                size_t kind, size_t width, size_t drag,
                                                const uint64_t *mass, size_t mass_length,
                                                int64_t *px, size_t px_length,
                                                int64_t *py, size_t py_length);

GONDWIZE_MUST_USE uint64_t gondwize_page_gather(size_t nx, size_t ny,
                                                uint8_t *records, size_t records_length,
                                                const int64_t *ux, size_t ux_length,
                                                const int64_t *uy, size_t uy_length);

GONDWIZE_MUST_USE uint64_t gondwize_page_step(size_t nx, size_t ny, int64_t gx, int64_t gy,
                                              size_t kind, size_t width, size_t drag,
                                              uint8_t *records, size_t records_length,
                                              uint64_t *mass, size_t mass_length,
                                              int64_t *px, size_t px_length,
                                              int64_t *py, size_t py_length);

GONDWIZE_MUST_USE uint64_t gondwize_page_run(size_t nx, size_t ny, int64_t gx, int64_t gy,
                                             size_t kind, size_t width, size_t drag, size_t steps,
                                             uint8_t *records, size_t records_length,
                                             uint64_t *mass, size_t mass_length,
                                             int64_t *px, size_t px_length,
                                             int64_t *py, size_t py_length, uint64_t *completed);

GONDWIZE_MUST_USE uint64_t gondwize_page_read_file(const uint8_t *bytes, size_t bytes_length,
                                                   int64_t values[GONDWIZE_AT_LEAST(9)]);

GONDWIZE_MUST_USE uint64_t gondwize_page_keep(uint8_t *store, size_t store_length,
                                              const uint8_t *name, size_t name_length,
                                              const uint8_t *file, size_t file_length);

#ifdef __cplusplus
}
#endif

#endif
