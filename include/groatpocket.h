/* Groatpocket: a proved tile rasterizer. Link with libgroatpocket.a.
 *
 * Everything is lent: a slice is a pointer and the number of its elements. Each pointer must be
 * valid and aligned for that many elements (for none it may be NULL), and slices that a call writes
 * must not overlap any other slice of the call. A pointer to one number (item, stage, lines, made,
 * size, width, height, area, pixel, place, found, tiles, words) must not be NULL, and the number must lie apart from the others and from
 * every slice. Floats are IEEE 754 with the default environment:
 * round to nearest, subnormals kept (a program linked with -ffast-math turns them off). Nothing else
 * is asked: any words and floats may be lent. A call touches nothing outside the slices, always ends,
 * and answers a refusal number; what is refused changes nothing, and what came before it stands.
 * docs/RULES.md has the rules, docs/PROMISES.md what is proved of each call.
 *
 * NULL for no elements: the proofs speak of slices, and a slice of none has no element to read or
 * write; that a pointer which is never followed may be NULL is not proved: the compiled exports put an
 * address that is never followed in the place of NULL as they begin, and the runs lend NULL for about
 * half of the slices of none.
 *
 * Threads: the archive has no data of its own. Calls may run at once, on any threads, where no call
 * writes what another reads or writes: they may share what all of them only read. The slice of pixels
 * that a call is lent is its own while it runs; gp_fine_rows draws a band of the screen in a slice of
 * its own, so that several may draw one screen at once.
 *
 * Stack: under 65,536 bytes for gp_write_lists and gp_draw and under 8,192 for any other call, no recursion, nothing allocated. From outside it needs memcpy
 * and memset alone.
 */
#ifndef GROATPOCKET_H
#define GROATPOCKET_H

#include <stdbool.h>
#include <stddef.h>
#include <stdint.h>

/* The version, as text and as a number: 10,000 for each major one, 100 for each minor one. */
#define GP_VERSION "0.2.0"
#define GP_VERSION_NUMBER 200u

#ifdef __cplusplus
extern "C" {
#endif

/* The archive's version: GP_VERSION_NUMBER of the header that it was made with. Ask it once, at the start: another
 * number means that the header and the archive aren't of one version. */
uint32_t gp_version(void);

/* The refusals. */
#define GP_DONE 0u        /* done */
#define GP_NOT_WHOLE 1u   /* no whole records, paired slices that differ, or a bad range */
#define GP_TOO_MANY 2u    /* too many paths, tiles or screen tiles */
#define GP_BAD_BOX 3u     /* a box edge over 4,096, or edges the wrong way round */
#define GP_BAD_RANGE 4u   /* a path's first tile before the end of the path before it, or tiles past the end */
#define GP_LINE_NUMBER 5u /* counting: line number 65,536 or more */
#define GP_COORDINATE 6u  /* a coordinate not finite, or over 65,536 in size */
#define GP_NO_SUCH 7u     /* no such path; in a reference, no such line or a skipped one */
#define GP_COUNT_OVER 8u  /* a step number or a tile's count over its limit */
#define GP_NO_ROOM 9u     /* no room for references, slots, regions of commands, a file or lines */
#define GP_OUTSIDE 10u    /* a step outside its path's box */
#define GP_SUM_OVER 11u   /* a backdrop or a running sum leaves 32 bits */
#define GP_CROOKED 12u    /* a segment end outside its tile */
#define GP_PAST_END 13u   /* command words or segments past the end of those lent */
#define GP_UNKNOWN 14u    /* an unknown command */
#define GP_TOO_LONG 15u   /* over 4,096 commands on one tile */
#define GP_BAD_SCREEN 16u /* a screen too narrow, or too few pixels */
#define GP_BAD_SIZE 17u   /* a picture's width or height outside 1 to 16,384 */
#define GP_BAD_FILE 18u   /* no P6 file: another header, or bytes missing or left over */
#define GP_OFF_TILE 19u   /* a pixel's column or row over 15 */
#define GP_BAD_SEGMENT 20u /* a fill's segment with an end outside 0..16, or a y_edge not finite */
#define GP_BAD_TEXT 21u   /* a text that is no path data of SVG */
#define GP_TOO_DEEP 22u   /* a curve halved more than 6 times */
#define GP_LEFT_OPEN 23u  /* an outline that doesn't end where it began */

/* The limits: at most so many, or so large. */
#define GP_MAX_PATHS 4096u
#define GP_MAX_TILES 1048576u  /* tiles of all boxes together; tiles of a screen */
#define GP_MAX_EDGE 4096u      /* an edge of a box, in tiles */
#define GP_MAX_LINES 65536u    /* line numbers are below it */
#define GP_MAX_STEPS 65536u    /* a line's step numbers are below it */
#define GP_MAX_COUNT 65536u    /* a tile's count */
#define GP_MAX_SLOTS 16777216u /* references; segments that can be handed out */
#define GP_MAX_COMMANDS 4096u  /* commands on one screen tile, END not counted */
#define GP_MAX_SIDE 16384u     /* a picture's width, and its height, in pixels */
#define GP_MAX_COORD 65536.0f  /* a coordinate's size, in pixels */
#define GP_MAX_DEPTH 6u        /* how often a curve of an outline is halved */

/* The part of a frame, or of gp_draw, that refused. */
#define GP_STAGE_NONE 0u     /* none: the frame is done */
#define GP_STAGE_LENT 1u     /* the checks of what is lent; nothing has changed */
#define GP_STAGE_COUNT 2u    /* counting; the item is a line */
#define GP_STAGE_SUMS 3u     /* the sums of the backdrops; the item is a path */
#define GP_STAGE_HAND_OUT 4u /* hand-out: too few segments lent; the item is 0 */
#define GP_STAGE_TILE 5u     /* tiling; the item is a reference */
#define GP_STAGE_LISTS 6u    /* gp_draw: the lists; the item is a screen tile */
#define GP_STAGE_FINE 7u     /* gp_draw: fine; the item is a screen tile. No drawing is ever refused there */

/* What a check of another's tables found. */
#define GP_FOUND_NOTHING 0u   /* it was refused: nothing is said of the tables */
#define GP_FOUND_YES 1u       /* yes: they are as good as our own count */
#define GP_FOUND_REFERENCE 2u /* no: the reference *item is at fault, or missing where there are *item of them */
#define GP_FOUND_COUNT 3u     /* no: the count of tile *item */
#define GP_FOUND_BACKDROP 4u  /* no: the backdrop of tile *item */
#define GP_FOUND_SLOTS 5u     /* no: the slots of tile *item */

/* Tiles are squares of so many pixels to a side. A path's box is in tiles: x0, y0 are its first column and
 * row, x1, y1 the first ones outside. A box of x0 = x1 or y0 = y1 has no tile. Tile (x, y) of a box is
 * number first + (y - y0) * (x1 - x0) + (x - x0). */
#define GP_TILE 16u

/* Colours. A paint, and the word after GP_CMD_COLOR, has red in the HIGH byte; a pixel has it in the LOW one:
 *
 *                     bits 31..24   23..16   15..8   7..0
 *     paint, COLOR    red           green    blue    alpha     0x204060ff: red 0x20
 *     pixel           alpha         blue     green   red       0xff604020: the same colour
 *
 * (in memory, on a little-endian processor, a pixel's bytes are red, green, blue, alpha). Both are multiplied
 * by alpha already (premultiplied): no channel is to be larger than alpha. From straight red, green, blue and
 * alpha, 0 to 255 each: (c * alpha + 127) / 255 for each of the three, GP_PAINT does it. A colour that isn't
 * premultiplied is no refusal: it is drawn too bright. A pixel starts as 0; a paint of channels c and alpha a
 * (as parts of 255) over a pixel p, covering the part k of it, makes p * (1 - a * k) + c * k in each channel,
 * alpha too; packed, each channel is held to 0..1, times 255, rounded, halves up. */
#define GP_PREMULTIPLIED(c, alpha) (((uint32_t)(c) * (uint32_t)(alpha) + 127u) / 255u)
#define GP_PAINT(red, green, blue, alpha)                                                     \
    (GP_PREMULTIPLIED(red, alpha) << 24 | GP_PREMULTIPLIED(green, alpha) << 16 |             \
     GP_PREMULTIPLIED(blue, alpha) << 8 | (uint32_t)(alpha))

/* The widths of the records, the places of their words, and the commands. */
#define GP_PATH_WORDS 6u     /* box x0, y0, x1, y1 in tiles, the first tile, the beam number */
#define GP_LINE_FLOATS 4u    /* p0.x, p0.y, p1.x, p1.y in pixels */
#define GP_REF_WORDS 2u      /* line number; slice number * GP_STEP_RANGE + step number */
#define GP_SEGMENT_FLOATS 5u /* point0.x, point0.y, point1.x, point1.y, y_edge */
#define GP_PAINT_WORDS 2u    /* colour, red in the high byte; rule, its lowest bit set for even-odd */
#define GP_OUTLINE_WORDS 2u  /* working room of gp_outlines, for each path */
#define GP_BOX_WORDS 4u      /* working room of gp_boxes, for each path */
#define GP_PATH_X0 0u        /* where a path's words stand */
#define GP_PATH_Y0 1u
#define GP_PATH_X1 2u
#define GP_PATH_Y1 3u
#define GP_PATH_FIRST 4u
#define GP_PATH_BEAM 5u
#define GP_REF_LINE 0u       /* a reference's */
#define GP_REF_PACKED 1u
#define GP_STEP_RANGE 65536u /* its second word: slice number * GP_STEP_RANGE + step number */
#define GP_SEGMENT_Y_EDGE 4u /* the last of a segment's floats */
#define GP_PAINT_COLOUR 0u   /* a paint's */
#define GP_PAINT_RULE 1u
#define GP_CMD_END 0u
#define GP_CMD_FILL 1u  /* then segments * 2 + (1 for even-odd), first segment, backdrop */
#define GP_CMD_SOLID 2u /* one word: the next command follows at once */
#define GP_CMD_COLOR 3u /* then the colour, red in the high byte, alpha in the low one */
#define GP_CMD_JUMP 4u  /* then the word to go on at */
#define GP_TILE_WORDS 64u /* tile t's list starts at word 64 t + 1 */

/* A path's words in their order, for the list in braces of an array: {GP_PATH(0, 0, 2, 2, 0, 7), GP_PATH(2, 0, 4, 2, 4, 8)}. */
#define GP_PATH(x0, y0, x1, y1, first, beam) (x0), (y0), (x1), (y1), (first), (beam)

/* Beam numbers and tags. A path's beam number is the one stamped on the steel. Any word is one, two paths may carry the
 * same, and no call draws anything else for it. gp_tile and gp_frame write it beside each segment: tags has a word for
 * each slot, and a slot's tag is the beam number of the path of the line whose piece the segment there is. So whoever
 * draws or keeps segments can hold them against the beam they are meant for: the slots of a tile of path p carry p's
 * number, and so do those of a FILL that gp_write_lists wrote for p. A slot that is not written keeps its tag, as it
 * keeps its segment; so does the slot of a reference that is refused, or skipped for a tile with no slots. */

/* What a 1 was for: each call says in which order it looks. "Whole" is a length that is so many times the
 * record's width. After 1 comes 2, then 16, then each path's 3 and 4 in order; after that what the call says.
 *
 * What a 9 would have needed: for references, segments, tags and lists gp_sizes tells it, before anything is lent. Or
 * by hand: for references, *made and as many as the refused line has steps (GP_MAX_STEPS always suffice for one line);
 * for slots, the sum of the counts, which is *made where the tiles were clear: a segment and a tag for each;
 * for a file, 3 bytes a pixel and at most 19 for its head; for lists see gp_write_lists. A 16 needs
 * a width of GP_TILE * cols, and width * GP_TILE * rows pixels. */

/* Lists kept from before: SOLID used to take a second word, 0. That 0 is now read as END, so the tile
 * shows nothing of what follows it, and the call still answers 0. Write such lists again, by
 * gp_write_lists or without that word, before they are drawn. */

/* A whole frame: checks all that is lent, clears backdrops and counts, counts all lines, sums the
 * backdrops, hands out slots (as many as segments are lent) and tiles every reference. Afterwards
 * backdrops are the sums, stored what hand-out left, tally the counts, and segments and tags below
 * *made are written.
 * Where it refuses, *stage says which part; *item is the line, path or reference; *lines and *made are
 * what was counted (0 and 0 where the checks refuse). What the parts before it did stands.
 * 1: coords whole; as many path_nos as lines; backdrops, stored and tally equally long; refs whole;
 * segments whole; a tag for each segment; paths whole. */
uint32_t gp_frame(const uint32_t *path_nos, size_t path_nos_len,
                  const float *coords, size_t coords_len,
                  const uint32_t *paths, size_t paths_len,
                  int32_t *backdrops, size_t backdrops_len,
                  uint32_t *stored, size_t stored_len,
                  uint32_t *tally, size_t tally_len,
                  uint32_t *refs, size_t refs_len,
                  float *segments, size_t segments_len,
                  uint32_t *tags, size_t tags_len,
                  uint32_t *stage, uint32_t *item, uint32_t *lines, uint32_t *made);

/* The command lists of a screen of cols by rows tiles: the paths in their order, each with its paint.
 * backdrops, stored and tally are what gp_frame leaves in backdrops, stored and tally; room is the
 * number of segments that gp_fine will be lent. A list that fills its 64 words goes on in 64 fresh
 * ones past all tiles'; other words stay. 64 words for each tile and ten paths always suffice. 15 with
 * the first screen tile of too many commands in *item; 9 where the words or the room don't suffice. A
 * refusal writes no word.
 * 1: paths whole; two words of paint for each path; stored, then tally, as long as backdrops. */
uint32_t gp_write_lists(const uint32_t *paths, size_t paths_len,
                        const uint32_t *paints, size_t paints_len,
                        const int32_t *backdrops, size_t backdrops_len,
                        const uint32_t *stored, size_t stored_len,
                        const uint32_t *tally, size_t tally_len,
                        uint32_t cols, uint32_t rows, uint32_t room,
                        uint32_t *words, size_t words_len, uint32_t *item);

/* Pixels: screen tiles from .. to of a screen of cols by rows tiles and width pixels to a row, each
 * by its list of commands. Stops before the first tile refused, with its number in *item.
 * 1: segments whole; from <= to; to <= cols * rows. */
uint32_t gp_fine(const uint32_t *words, size_t words_len,
                 const float *segments, size_t segments_len,
                 uint32_t width, uint32_t cols, uint32_t rows, uint32_t from, uint32_t to,
                 uint32_t *pixels, size_t pixels_len, uint32_t *item);

/* A picture on paper: pixels, width * height of them, as a binary Netpbm P6 file at the front of out;
 * *size is its length, 0 where refused (17, 1, 9).
 * 17 first, then 1: pixels not width * height of them, then 9. */
uint32_t gp_ppm_write(const uint32_t *pixels, size_t pixels_len,
                      uint32_t width, uint32_t height,
                      uint8_t *out, size_t out_len, size_t *size);

/* Reads such a file, comments allowed: red, green and blue of each pixel to the front of out; 18, 17,
 * 18 for the raster, 9. *width and *height are 0 where refused. */
uint32_t gp_ppm_read(const uint8_t *file, size_t file_len,
                     uint8_t *out, size_t out_len, uint32_t *width, uint32_t *height);

/* The stages of a frame one by one, for whoever feeds lines in batches.
 *
 * Counting. Lines from *lines up to end: path_nos has a path number for each line, coords four
 * floats. Each line adds to its tiles' counts and backdrops and writes its references; *lines and
 * *made go on from where they stood. It stops before the first line refused, whose number is in
 * *item (for 3 and 4 the path's, for 0, 1 and 2 it is 0). A refused line changes nothing.
 * 1: coords whole; as many path_nos as lines; backdrops and counts equally long; refs whole;
 * *lines <= end; end at most the lines lent; paths whole. */
uint32_t gp_count(const uint32_t *path_nos, size_t path_nos_len,
                  const float *coords, size_t coords_len,
                  const uint32_t *paths, size_t paths_len,
                  int32_t *backdrops, size_t backdrops_len,
                  uint32_t *counts, size_t counts_len,
                  uint32_t *refs, size_t refs_len,
                  uint32_t end, uint32_t *lines, uint32_t *made, uint32_t *item);

/* Running sums of the backdrops along the tile rows of each path. Stops before the first path whose
 * sums leave 32 bits, with its number in *item.
 * 1: paths whole. */
uint32_t gp_backdrop(const uint32_t *paths, size_t paths_len,
                     int32_t *backdrops, size_t backdrops_len, uint32_t *item);

/* Hand-out: each tile with a count above 0 takes so many slots and holds the NOT of its first; an
 * empty tile holds 0: the stored words, under which name gp_tile and gp_write_lists take them. The
 * counts are kept in the tally. 9 where they need more than room slots.
 * 1: counts and tally equally long. */
uint32_t gp_hand_out(uint32_t *counts, size_t counts_len,
                     uint32_t *tally, size_t tally_len, uint32_t room);

/* Tiling: references from .. to, each writes its segment, relative to its tile, at its slot, and its
 * path's beam number at that slot of tags. Stops before the first refused, with its number in *item.
 * stored is what gp_hand_out left in counts.
 * 1: coords whole; as many path_nos as lines; paths whole; refs whole; segments whole; a tag for each
 * segment; from <= to; to at most the references lent. */
uint32_t gp_tile(const uint32_t *path_nos, size_t path_nos_len,
                 const float *coords, size_t coords_len,
                 const uint32_t *paths, size_t paths_len,
                 const uint32_t *stored, size_t stored_len,
                 const uint32_t *refs, size_t refs_len,
                 uint32_t from, uint32_t to,
                 float *segments, size_t segments_len,
                 uint32_t *tags, size_t tags_len, uint32_t *item);

/* The coverage of the 256 pixels of one tile: number segments from first on, over the backdrop.
 * even_odd: 0 for non-zero, else even-odd. x_tile, y_tile: the tile's corner in the segments'
 * coordinates: 0, 0 for segments from gp_tile or gp_frame, which are relative to their tile.
 * area_len must be 256, else 1; then 13, then 20 where one of those segments has an end outside 0 to 16 or a
 * y_edge not finite. Where it refuses, the area stays.
 * 1: segments whole; then area_len. */
uint32_t gp_fill(const float *segments, size_t segments_len,
                 uint32_t first, uint32_t number, uint32_t even_odd, int32_t backdrop,
                 float x_tile, float y_tile, float *area, size_t area_len);

/* One pixel of a tile, 0 to 15 in column and row, without the other 255: what gp_fill leaves there for
 * the same segments, rule, backdrop and corner, in *area. 19 for a column or row over 15, then as
 * gp_fill 1, 13 and 20. Where it refuses, *area stays.
 * 1: segments whole. */
uint32_t gp_pixel_area(const float *segments, size_t segments_len,
                       uint32_t first, uint32_t number, uint32_t even_odd, int32_t backdrop,
                       float x_tile, float y_tile, uint32_t column, uint32_t row, float *area);

/* The same under a list of commands: the pixel that gp_fine leaves there for a screen with that tile,
 * in *pixel. 19, then 1, then as the tile has them 13, 14, 15 and 20. Where it refuses, *pixel stays.
 * 1: segments whole. */
uint32_t gp_pixel(const uint32_t *words, size_t words_len,
                  const float *segments, size_t segments_len,
                  uint32_t tile, uint32_t column, uint32_t row, uint32_t *pixel);

/* A recount of one path, where one gauge has moved: its tiles are zeroed and its new lines counted into
 * them, and no tile of another path changes. line_nos has each line's own number, path_nos must name
 * path. It works on counts and backdrops as gp_count leaves them, before sums and hand-out; refs is a
 * list of this path alone, from its first place on, and *made says how many references are in it.
 * kept_backdrops and kept_counts are each as long as the path's range, and afterwards hold what it held.
 * 7 for a path not there comes after 1 to 4, then 1 for a kept slice of another length. Where a line is
 * refused, its own number is in *item, the range gets back what it held, and refs holds the references
 * of the lines before it. */
uint32_t gp_recount(uint32_t path,
                    const uint32_t *line_nos, size_t line_nos_len,
                    const uint32_t *path_nos, size_t path_nos_len,
                    const float *coords, size_t coords_len,
                    const uint32_t *paths, size_t paths_len,
                    int32_t *backdrops, size_t backdrops_len,
                    uint32_t *counts, size_t counts_len,
                    uint32_t *refs, size_t refs_len,
                    int32_t *kept_backdrops, size_t kept_backdrops_len,
                    uint32_t *kept_counts, size_t kept_counts_len,
                    uint32_t *made, uint32_t *item);

/* The records of paths, made from their lines: for each path the tiles that its lines' ends lie in, margin
 * tiles more on every side as far as 0 and GP_MAX_EDGE let it, then first tiles one after another, and its beam
 * number. A path with no line gets an empty box. beams has one beam number for each path, and paths a whole record
 * for each: all of its words are written. *tiles is how many tiles the boxes take in all: so many backdrops and counts the
 * calls over these paths are lent. A coordinate below 0 counts as in tile 0; an end in a tile past the last, a
 * coordinate of 65,536 alone, is 3.
 * work is working room: 9 where it is under GP_BOX_WORDS for each path. Refused, in this order: 1, 2 (over GP_MAX_PATHS),
 * 9, then for each line 5, 6, 7 and 3, then 2 where the tiles are over GP_MAX_TILES. A refusal changes no path and
 * leaves *tiles 0; work stays, but where the boxes are made or their tiles are too many: its first GP_BOX_WORDS * beams_len words are
 * 0 then. *item is the line for 5, 6 and 7, the line's path for 3, else 0.
 * 1: coords whole; as many path_nos as lines; paths whole; as many paths as beams. */
uint32_t gp_boxes(const uint32_t *path_nos, size_t path_nos_len,
                  const float *coords, size_t coords_len,
                  const uint32_t *beams, size_t beams_len,
                  uint32_t margin,
                  uint32_t *paths, size_t paths_len,
                  uint32_t *work, size_t work_len,
                  uint32_t *tiles, uint32_t *item);

/* A check of another's tables: a graphics card has counted the lines and handed out slots, and nothing of it
 * is trusted. path_nos, coords and paths are ours; refs, counts (what hand-out keeps in the tally), backdrops
 * (before the sums), stored and room (the slots there are) are the other's. It counts all lines itself, from
 * zeroed tiles, and is refused where that count is. Then *found is GP_FOUND_YES only where the references,
 * in any order, are by line and step those that our lines make, each once; every tile's slice numbers
 * are 0 up to its count less one; counts and backdrops are ours; and the slots of tiles with a count above 0
 * don't overlap and lie within room and GP_MAX_SLOTS. Otherwise *found names the table, in the order references,
 * counts, backdrops, slots, and *item its first entry at fault; where only a reference is missing, the number of
 * those lent. THE ANSWER 0 IS NO YES: look at *found. After a yes gp_tile over these tables writes no stray piece.
 * work is working room: 9 where it is under four words for each tile, line and reference lent, before the lines.
 * Where the checks refuse it stays; else its first 4 * (tiles + lines + references) words are 0 afterwards, and the
 * rest as they were. *item is the path for 3 and 4, the line for our own count's refusal; 0 for 1, 2, that 9 and yes.
 * 1: coords whole; as many path_nos as lines; refs whole; backdrops, then stored, as long as counts; paths whole. */
uint32_t gp_check(const uint32_t *path_nos, size_t path_nos_len,
                  const float *coords, size_t coords_len,
                  const uint32_t *paths, size_t paths_len,
                  const uint32_t *refs, size_t refs_len,
                  const uint32_t *counts, size_t counts_len,
                  const int32_t *backdrops, size_t backdrops_len,
                  const uint32_t *stored, size_t stored_len,
                  uint32_t room,
                  uint32_t *work, size_t work_len,
                  uint32_t *found, uint32_t *item);

/* Whether lines make closed outlines: run it over one's own lines before they are drawn, since a forgotten closing
 * line leaks a fill across the box, and no other call refuses it. Lines of different paths may be mixed. A line that
 * starts where its path's line before it ended goes on with that line's outline; any other begins a new one. An outline
 * must end where it began. Points are compared bit for bit: +0 is not -0, and a NaN is the same as nothing. work is
 * working room, GP_OUTLINE_WORDS for each path: 9 where it is less. Then 5 for line number 65,536, and 7 for a path
 * number not below path_count, with the first such line; then 23 with the first line after which an outline stands
 * open. *item is that line; 0 for 0, 1, 2 and 9. Where 1, 2, 9, 5 or 7 is answered work stays; else its first
 * GP_OUTLINE_WORDS * path_count words are 0 afterwards, and the rest as they were. Nothing is said of boxes, nor of
 * whether a coordinate is one that counting takes (6).
 * 1: coords whole; as many path_nos as lines. */
uint32_t gp_outlines(const uint32_t *path_nos, size_t path_nos_len,
                     const float *coords, size_t coords_len,
                     uint32_t path_count,
                     uint32_t *work, size_t work_len,
                     uint32_t *item);

/* How much lines and paths need, asked before anything is lent for them: *tiles tiles (backdrops, stored, tally), *made
 * references (as many segments and tags), and *words words for the lists of a screen of cols by rows tiles. Nothing
 * is written, and no step is walked. With so much room, and it may be more, gp_count from no lines and no references
 * on, gp_frame, and gp_write_lists after it, are never refused with 9. *tiles and *made are exact: gp_frame, where it is done,
 * makes as many references, and fewer tiles are refused with 4. *words is enough for any paints: a list may leave some
 * of them. A line that counting refuses at one of its steps (10, or a tile's 8 or 11) is counted in here, since its
 * steps aren't walked. Lines are refused as counting has them: 5, 6, 7, 8 for the largest step number, and 9 where the references
 * pass GP_MAX_SLOTS, with the line in *item. The three numbers are 0 where it refuses.
 * 1: coords whole; as many path_nos as lines; paths whole. 2 for the screen's tiles too. 4 holds the paths against
 * GP_MAX_TILES tiles. */
uint32_t gp_sizes(const uint32_t *path_nos, size_t path_nos_len,
                  const float *coords, size_t coords_len,
                  const uint32_t *paths, size_t paths_len,
                  uint32_t cols, uint32_t rows,
                  uint32_t *tiles, uint32_t *made, uint32_t *words, uint32_t *item);

/* The lines of an outline, from the path data of SVG 1.1: M, L, H, V, Z and Q, large or small, with
 * numbers of up to six digits before the point and three after. They stand at the front of path_nos
 * and coords as gp_count and gp_frame take them, each with the number path; *lines says how many. A Q
 * curve becomes 2^depth lines; outlines left open are closed. 22 for a depth over 6; 1 where coords
 * isn't four to each of path_nos; 21 for a text that is no such path data, with the first byte that
 * can't stand there (or text_len, where it ends too soon) in *place; 9 where the lines have no room.
 * *lines is 0 where refused, *place 0 but for 21; a refusal writes no line.
 * 22 first, then 1: coords not four to each of path_nos. */
uint32_t gp_svg_lines(const uint8_t *text, size_t text_len,
                      uint32_t depth, uint32_t path,
                      uint32_t *path_nos, size_t path_nos_len,
                      float *coords, size_t coords_len,
                      size_t *lines, size_t *place);

/* A band of gp_fine's screen: its tile rows from first up to end. pixels is the band's own slice, from the
 * first pixel of row GP_TILE * first of the screen on, width * GP_TILE * (end - first) of them or more (else
 * 16). Calls over bands that don't meet may run at once, and share words and segments; wherever the rows
 * are cut, the bands' pixels one after another are what gp_fine leaves on the whole screen. *item is the
 * tile's number on the whole screen. Where bands refuse, the refusal of the uppermost is gp_fine's; gp_fine
 * would draw nothing after it.
 * 1: segments whole; first <= end; end <= rows. */
uint32_t gp_fine_rows(const uint32_t *words, size_t words_len,
                      const float *segments, size_t segments_len,
                      uint32_t width, uint32_t cols, uint32_t rows, uint32_t first, uint32_t end,
                      uint32_t *pixels, size_t pixels_len, uint32_t *item);

/* From lines to pixels in one call: gp_frame, then gp_write_lists over what it left, with as much room as segments
 * are lent, then gp_fine over all screen tiles. It takes what they take, and tells what gp_frame tells: *stage
 * may be GP_STAGE_LISTS too, where the lists refuse with 15 or 9. All that needs only lengths and sizes is checked
 * before anything is written: a refusal with GP_STAGE_LENT changes nothing. What the parts before a later refusal
 * did stands.
 * 1: as gp_frame; then paths whole; two words of paint for each path. Then 2, for paths, tiles and screen tiles;
 * 16; each path's 3 and 4. */
uint32_t gp_draw(const uint32_t *path_nos, size_t path_nos_len,
                 const float *coords, size_t coords_len,
                 const uint32_t *paths, size_t paths_len,
                 const uint32_t *paints, size_t paints_len,
                 int32_t *backdrops, size_t backdrops_len,
                 uint32_t *stored, size_t stored_len,
                 uint32_t *tally, size_t tally_len,
                 uint32_t *refs, size_t refs_len,
                 float *segments, size_t segments_len,
                 uint32_t *tags, size_t tags_len,
                 uint32_t width, uint32_t cols, uint32_t rows,
                 uint32_t *words, size_t words_len,
                 uint32_t *pixels, size_t pixels_len,
                 uint32_t *stage, uint32_t *item, uint32_t *lines, uint32_t *made);

/* The shown part of a screen's pixels as bytes for a frame buffer: the top left width by height pixels of rows of
 * screen pixels each, at the front of out, row after row, each stride bytes past the one before. bgra 0: red, green,
 * blue, alpha; else blue, green, red, alpha. Bytes between two rows, and after the last, stay. A refusal changes nothing:
 * 17; 1; then 9 where out has fewer than stride * (height - 1) + 4 * width bytes.
 * 1: screen at least width; pixels whole rows of screen; at least height rows; stride at least 4 * width. */
uint32_t gp_present(const uint32_t *pixels, size_t pixels_len,
                    uint32_t screen, uint32_t width, uint32_t height, uint32_t stride, uint32_t bgra,
                    uint8_t *out, size_t out_len);

/* The float helpers: each is the rules' own, docs/RULES.md, "Float meanings". */
float gp_floor(float x);
float gp_ceil(float x);
float gp_round(float x); /* halves away from zero */
float gp_trunc(float x);
float gp_abs(float x);
float gp_signum(float x); /* 1 for +0, -1 for -0, NaN for NaN */
float gp_min(float a, float b); /* the other where one is NaN; -0 below +0 */
float gp_max(float a, float b);
float gp_copysign(float magnitude, float sign); /* the sign of a NaN counts as plus */
float gp_clamp(float x, float lo, float hi); /* x itself where lo > hi or one is NaN */
uint32_t gp_to_u32(float x); /* toward zero, held to the range, 0 for NaN */
int32_t gp_to_i32(float x);
float gp_of_u32(uint32_t n); /* to nearest, ties to even */
float gp_of_i32(int32_t n);
bool gp_is_finite(float x);

#ifdef __cplusplus
}
#endif

/* A refusal in words, for a log: the same as the Rust crate's. No function of the archive. */
static inline const char *gp_refusal_text(uint32_t refusal) {
    switch (refusal) {
    case GP_DONE: return "done";
    case GP_NOT_WHOLE: return "no whole records, paired slices that differ, or a bad range";
    case GP_TOO_MANY: return "too many paths, tiles or screen tiles";
    case GP_BAD_BOX: return "a box edge over 4,096, or edges the wrong way round";
    case GP_BAD_RANGE: return "a path's first tile before the end of the path before it, or tiles past the end";
    case GP_LINE_NUMBER: return "counting: line number 65,536 or more";
    case GP_COORDINATE: return "a coordinate not finite, or over 65,536 in size";
    case GP_NO_SUCH: return "no such path; in a reference, no such line or a skipped one";
    case GP_COUNT_OVER: return "a step number or a tile's count over its limit";
    case GP_NO_ROOM: return "no room for references, slots, regions of commands or a file";
    case GP_OUTSIDE: return "a step outside its path's box";
    case GP_SUM_OVER: return "a backdrop or a running sum leaves 32 bits";
    case GP_CROOKED: return "a segment end outside its tile";
    case GP_PAST_END: return "command words or segments past the end of those lent";
    case GP_UNKNOWN: return "an unknown command";
    case GP_TOO_LONG: return "over 4,096 commands on one tile";
    case GP_BAD_SCREEN: return "a screen too narrow, or too few pixels";
    case GP_BAD_SIZE: return "a picture's width or height outside 1 to 16,384";
    case GP_BAD_FILE: return "no P6 file: another header, or bytes missing or left over";
    case GP_OFF_TILE: return "a pixel's column or row over 15";
    case GP_BAD_SEGMENT: return "a fill's segment with an end outside 0..16, or a y_edge not finite";
    case GP_BAD_TEXT: return "a text that is no path data of SVG";
    case GP_TOO_DEEP: return "a curve halved more than 6 times";
    case GP_LEFT_OPEN: return "an outline that doesn't end where it began";
    default: return "no refusal of this version";
    }
}

#endif
