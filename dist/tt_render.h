/*
 * tt_render: text drawn with a TrueType font, as black and white pictures.
 *
 * A call takes a font as the bytes of its file. The library has no state, no handle and no thread. Each call but
 * tt_version and tt_supported fills the caller's answer, and returns the status in it. Unless the status is 0, all
 * other memory of the caller's is unchanged, except that tt_draw_lines has written the lines before the one that
 * stopped it. What follows the written bytes and entries of a room is unchanged. A text is UTF-8, and needs no zero at
 * its end. Several threads may call at once.
 *
 * It is proved of the library's source that each call does what its comment says, except for costs, and for
 * tt_supported, which is C. No proof holds C to the caller's part, which is:
 *   - Each pointer is valid for as many elements as its length says, and aligned for its type. NULL goes with the
 *     length 0 alone, and a struct is never NULL. The library tests no pointer: another NULL is undefined behaviour, a
 *     crash as a rule.
 *   - Memory that a call writes overlaps with nothing else that the call was given. So the two answers of tt_message
 *     are two structs. Memory that a call only reads may overlap. No one else writes to it before the call returns, and
 *     no one else touches the memory that the call writes.
 *   - 64 KiB of stack are free.
 *   - The processor is x86-64-v2 or newer, or aarch64 (Armv8-A). tt_supported tests this, and no other call: on an
 *     older x86-64 the others may end the process by SIGILL.
 *   - rattle_alloc, rattle_realloc and rattle_dealloc do what the end of this header says. The library also needs
 *     memcpy, memmove, memset and, from the compiler's own runtime, __udivti3 (-lgcc where nothing else is linked).
 *   - No call comes from a signal handler, or from the forked child of a process with threads.
 *
 * No struct has a size field or a version. So a struct, tt_job too, changes only with a new number in the name of the
 * shared library, libtt_render.so.2; then a caller has to be compiled anew.
 *
 * A font file is read strictly or widely. Strictly the file has one font, whose cmap has format 4 or 12. Widely the
 * file may be a collection of faces, and more formats and kinds of cmap are read: formats 0, 6, 10 and 13, symbol
 * fonts, Macintosh Roman. Where a font is accepted strictly, a text without variation selectors has the same glyphs
 * widely. tt_open and tt_map read strictly, as do tt_open_face, tt_map_face and a job where their face is 0, except that
 * a job with TT_BEST then reads face 0 widely. A face of n + 1 reads face n widely. tt_label reads widely: 0 is face 0
 * too. Faces are numbered from 0, in the order of the file; a file that is no collection has face 0 alone.
 *
 * A unit of a text is a character. Read widely, a variation selector (U+FE00 to U+FE0F, U+E0100 to U+E01EF) is part of
 * the unit of the character before it, and chooses that unit's glyph where the font says so. Every other selector is
 * passed over, at the start and behind another one.
 *
 * A font with a table fvar is variable. A job draws an instance of it: a place on each of its axes. The places are
 * those of the font's default, or with instance those of a named instance; then each value of axis, in order, sets
 * every axis with its tag. A place past an end of an axis is the end. Advances, heights, kerning, outlines and programs
 * are those of the instance. With no instance and no value no table of variations is read. Where all places are the
 * defaults, fvar and avar alone are read, and each picture is that of the font's default. tt_axes and tt_instances tell
 * what a font has.
 *
 * A call reports the first refusal in this order: the way to fit, the number of values of axes (73), UTF-8, size,
 * margin, the text's length; the font's size, the place of the face, its tables, and of an instance fvar, the number of
 * the named instance (28), the tags (27), the header of gvar; the picture's size; loca and glyf, the font's programs,
 * the points and the deltas (65), the glyphs, the crossings (65). With TT_BEST the picture's size comes after the
 * glyphs. Without it, at an instance of a font without the table HVAR, the advances of all glyphs come just after the
 * header of gvar: loca and glyf, then each glyph's data. With grow, the size of the enlarged picture follows: a picture
 * that is empty before it is enlarged is refused (62). The room comes last. Of these, tt_layout and tt_pens report
 * nothing of the crossings. Without TT_BEST they report nothing that follows the picture's size but the room, since they
 * look at no glyph but for advances.
 *
 * tt_label reports the alignment (72) after the number of values of axes, and the box (70) and the width (69) after the
 * margin. Then it reports what tt_draw does with grow, but never an empty picture (62). With a width the picture's size
 * comes after the glyphs, whatever the way to fit, and again after the crossings, of the picture with rows for its ink.
 * With a box it reports the glyphs of one size after the other, from the greatest down, and where rows fit their
 * crossings. Before a size comes the work of the sizes before it (65), and after the last a text that fits at no size
 * (71).
 *
 * tt_glyphs reports too small a room for its entries before all else. Then it reports the way to fit, the number of
 * values of axes, the size, and the count (61); the font's size, the place of the face, its tables, the instance; loca
 * and glyf, the font's programs, the points and the deltas, the crossings (all 65); and last the room for the rows. A
 * refused glyph has its refusal in its entry.
 *
 * tt_strike reports the way to fit, the number of values of axes, size, margin; the font's size, the place of the face,
 * its tables, the instance; and last a line that has no rows (62) or too many (63). tt_map_job reports the way to fit,
 * the number of values of axes, UTF-8, the text's length; the font's size, the place of the face, its tables, the
 * instance; loca, glyf and the glyphs where these tell the advances; and last the room.
 *
 * tt_draw_lines reports, once for the call: the way to fit, the number of values of axes, size, margin; the font's
 * size, the place of the face, its tables, the instance; lines_room. Then, line by line: the line's ends (67), the work
 * of the lines before it (65), UTF-8, the text's length, and all that follows above. So where the font is damaged and a
 * line is not UTF-8, it answers TT_FONT, and tt_draw TT_NOT_UTF8. tt_lines_room reports the same, but looks at no room.
 *
 * Cost: tt_faces, tt_open, tt_map, with a face too, tt_map_job, tt_axes, tt_instances and tt_strike read tables alone.
 * So do tt_layout and tt_pens without TT_BEST; with TT_BEST they cost what tt_measure does, less the ink. At an
 * instance of a font without the table HVAR these read the glyphs' data for the advances, which no count bounds. A
 * glyph at an instance takes some 100 instructions for each delta of its points. tt_measure, tt_characters, tt_draw,
 * tt_draw_band and tt_label each run the font's first two programs and fit all glyphs of the text: with hinting mostly
 * some million instructions. This is so even where the room is too small. With a box tt_label does so for each size
 * that it tries: for a text that is far smaller than its box some hundred times. tt_glyphs runs the two programs once
 * and fits each glyph of its list once, also where the room for the rows is too small: a list costs what a text of its
 * glyphs does. tt_draw_lines runs the two programs once, and fits no glyph that is cached: a label of 16 letters then
 * takes some 30,000 instructions. tt_lines_room costs the same, less the rows. With keep 0 each line fits its glyphs
 * anew, for up to a million instructions. With kern a call reads at most 10,000 numbers of GPOS and kern when it opens
 * the font. For each pair of neighbouring glyphs it reads at most 5,120 numbers, up to three times; real fonts need some
 * 50.
 */
#ifndef TT_RENDER_H
#define TT_RENDER_H

#include <stddef.h>
#include <stdint.h>

#ifdef __cplusplus
extern "C" {
#endif

/* The version of this header, as a text, and as 10,000 times its first part, 100 times the second, and the third. */
#define TT_RENDER_VERSION_TEXT "0.3.0"
#define TT_RENDER_VERSION 300

/* The status of an answer. Up to 5 these are the program's exit statuses; 4, a failed write, does not occur here. */
enum {
    TT_DONE = 0,
    TT_FONT = 1,       /* the font is refused: number, table and offset say why */
    TT_JOB = 2,        /* the job is refused: number says why */
    TT_FONT_LARGE = 3, /* the font has more than 67,108,864 bytes */
    TT_MEMORY = 5,     /* memory was refused */
    TT_NOT_UTF8 = 6,   /* the text is not UTF-8 */
    TT_ROOM = 7        /* the caller's room is too small: bytes is the room needed, or count for entries */
};

/* The answer of a call. Unused fields are 0. */
struct tt_answer {
    uint32_t status;
    uint32_t number;  /* the refusal, of TT_REFUSALS below */
    uint8_t table[4]; /* the tag of the table that has the defect, "file" for the directory; no zero at the end */
    uint32_t offset;  /* the defect's offset in it, in bytes */
    uint64_t bytes;   /* the bytes written or needed; 0 for entries */
    uint64_t count;   /* the rows, entries or lines written or needed */
};

/* The figures of a font, in font units except the number of glyphs. */
struct tt_font {
    uint32_t units_per_em; /* 16 to 16,384 */
    int32_t ascent;        /* above the base line */
    int32_t descent;       /* above the base line, so mostly negative */
    uint32_t glyphs;
    int32_t line_gap;      /* between the descent of a line and the ascent of the next one */
};

/* The ways to fit outlines to the pixels, for a job's fit. */
enum {
    TT_FULL = 0,     /* by the font's programs; if a glyph's program is refused, so is the text */
    TT_NONE = 1,     /* not fitted */
    TT_FALLBACK = 2, /* as full, but a glyph with a refused program is drawn unfitted */
    TT_BEST = 3      /* as fallback, with the whole instruction set, bounded work and filled dropouts */
};

/* The tag of an axis, as TT_TAG('w', 'g', 'h', 't'); blanks fill up a tag of fewer than four characters. */
#define TT_TAG(a, b, c, d) ((uint32_t)(a) << 24 | (uint32_t)(b) << 16 | (uint32_t)(c) << 8 | (uint32_t)(d))

/* A value for each axis with a tag. */
struct tt_axis {
    uint32_t tag;  /* TT_TAG */
    int32_t value; /* 65,536 times the value: 700 is 45,875,200 */
};

/*
 * A request to draw a text. Where kern and rounded are 0, no pair of glyphs is kerned and heights are exact.
 *
 * kern moves neighbouring glyphs nearer or farther, by the font's tables: by GPOS where it has the feature kern for
 * Latin, else by the table kern. The step from a pen to the next is the sum of a glyph's advance and of its kerning with
 * the next glyph. The sum is rounded once, to the nearest pixel, a half up; where it is negative the step is 0. With
 * TT_BEST the advance is the distance of its two ends as the font's programs leave them, in 64ths of a pixel, and the
 * kerning is scaled to 64ths by the factor that scales outlines. The last glyph of a text has no kerning. Kerning pays
 * from 16 pixels per em on; below, letters come to touch. No defect of either table refuses anything: a table that passes
 * the end of the file counts as empty, and a number past the end of its table as 0.
 *
 * rounded makes the rise and the depth of a line the ascent and the descent, each rounded to the nearest row, a half up.
 * Else each is rounded up. Pictures of box drawing characters then join where they are set one below the other.
 *
 * tt_draw, tt_draw_band, tt_draw_lines, tt_lines_room, tt_measure, tt_characters, tt_layout and tt_pens look at both:
 * widths, pens and advances follow kern; heights, base lines, rise, depth and step follow rounded. tt_strike has no
 * text, and looks at rounded. tt_glyphs looks at neither. tt_open, tt_map and the calls with a face tell the font's own
 * figures, those of its default.
 *
 * All calls with a job look at instance, axes and axis. Where both numbers are 0, the font's default is drawn.
 */
struct tt_job {
    uint32_t size;    /* pixels per em, 1 to 300 */
    uint32_t margin;  /* pixels round the line, 0 to 64 */
    uint32_t fit;     /* TT_FULL .. TT_BEST */
    uint32_t grow;    /* not 0: the picture is enlarged on each side, by as little as possible, so that no ink is cut */
    uint32_t face;    /* n + 1: face n, read widely. 0: the only font, read strictly; with TT_BEST face 0, read widely */
    uint32_t kern;    /* not 0: pairs of neighbouring glyphs are kerned */
    uint32_t rounded; /* not 0: rise and depth are each rounded to the nearest row, so that box drawing joins */
    uint32_t blank;   /* not 0: a line of tt_draw_lines without a byte is blank, and never refused */
    uint32_t instance;       /* k + 1: the font's named instance k, as tt_instances tells it. 0: its default */
    uint32_t axes;           /* how many values of axis count, 0 to 16; the others are not looked at */
    struct tt_axis axis[16]; /* values of axes, in order, which come after the places of the named instance */
};

/* Where the shorter lines of a label stand, for a label job's align. */
enum {
    TT_LEFT = 0,
    TT_CENTRE = 1, /* between two columns, in the left one */
    TT_RIGHT = 2
};

/*
 * A request to draw a label. size, margin, fit, kern and rounded are as in tt_job.
 *
 * Where width, box_width and box_height are 0, the picture is as large as its lines with their margins, and enlarged on
 * each side as with grow.
 *
 * With a width the picture has exactly width columns. Each line is broken into rows, which fit between the margins: at
 * blanks, after hyphens, after U+200B and between ideographs; a word that is wider alone is broken within. Blanks at the
 * end of a row are not drawn. The rows stand between the margins by align. The picture is enlarged above and below so
 * that no ink is cut there. Ink past the sides is cut.
 *
 * With a box the picture has exactly box_width columns and box_height rows, and the text has the greatest size of at most
 * size at which it fits: rows are broken as with a width, but no word is, all rows fit between the margins, and no ink is
 * cut. Ink may stand in the margins. The rows stand in the middle. No size below 5 is tried, unless size is.
 */
struct tt_label_job {
    uint32_t size;       /* pixels per em, 1 to 300; with a box the greatest that is tried */
    uint32_t margin;     /* pixels round the lines, 0 to 64 */
    uint32_t fit;        /* TT_FULL .. TT_BEST */
    uint32_t face;       /* n + 1: face n. 0: face 0 */
    uint32_t kern;       /* not 0: pairs of neighbouring glyphs are kerned */
    uint32_t rounded;    /* not 0: rise and depth are each rounded to the nearest row, so that box drawing joins */
    uint32_t align;      /* TT_LEFT .. TT_RIGHT */
    uint32_t width;      /* 0, or the columns of the picture: more than both margins, at most 16,384 */
    uint32_t box_width;  /* 0, or the columns of a box: more than both margins, at most 16,384; then width is 0 */
    uint32_t box_height; /* 0, or the rows of a box: more than both margins, at most 4,096 */
    uint32_t instance;       /* as in tt_job */
    uint32_t axes;           /* as in tt_job */
    struct tt_axis axis[16]; /* as in tt_job */
};

/* An axis of a variable font. Its values are told as 65,536 times the value, as a job has them. */
struct tt_axis_range {
    uint32_t tag;          /* TT_TAG; a font may have several axes with one tag */
    int32_t least;         /* at most default_value */
    int32_t default_value; /* the place where nothing is asked for */
    int32_t greatest;      /* at least default_value */
    uint8_t name[68];      /* at most 64 characters of ASCII, '?' for any other character; and zeros at the end */
};

/* A named instance of a variable font. */
struct tt_instance {
    uint32_t instance; /* what a job has for it: k + 1 for instance k */
    int32_t place[64]; /* 65,536 times its value on each axis, in the order of tt_axes; 0 after the last axis */
    uint8_t name[68];  /* as the name of an axis */
};

/* A picture without its pixels. All is 0 for a blank line. */
struct tt_picture {
    uint32_t width;     /* pixels in a row, 1 to 16,384 */
    uint32_t height;    /* rows, 1 to 4,096 */
    uint64_t row_bytes; /* (width + 7) / 8 */
    int64_t baseline;   /* rows above the base line, which may lie outside the picture */
    uint64_t unfitted;  /* the distinct glyphs drawn unfitted although the job requests fitting */
};

/* A label without its pixels. */
struct tt_label {
    struct tt_picture picture; /* with the base line of the first row */
    uint64_t size;             /* the size that was drawn, in pixels per em: the job's, or with a box at most that */
    uint64_t cut_left;         /* columns of ink that were cut at the left; 0 where the job's width is 0 */
    uint64_t cut_right;        /* the same at the right */
    uint64_t missing;          /* the distinct characters without a glyph, once letters are composed */
};

/* A box of pixels; all four sides are included. */
struct tt_box {
    int64_t left;
    int64_t top;
    int64_t right;
    int64_t bottom;
};

/* The measure of a text: its picture, and the box of all ink, which may reach past the picture's edges. */
struct tt_measure {
    uint32_t width;
    uint32_t height;
    int64_t baseline;
    uint64_t unfitted;
    uint64_t has_ink; /* 0: nothing is black, and the box is all 0 */
    struct tt_box ink;
};

/* A unit of a text, in its picture's columns and rows. */
struct tt_character {
    uint32_t glyph;   /* 0 where the font has none for the unit */
    uint32_t advance; /* columns to the next unit's origin */
    int64_t pen;      /* the column of the origin */
    uint64_t has_ink; /* 0: nothing is black, and the box is all 0 */
    struct tt_box ink;
    uint64_t offset;  /* where the unit begins, in bytes from the start of the text */
};

/* A unit of a text in the font. */
struct tt_glyph {
    uint32_t code_point; /* the character's */
    uint32_t glyph;      /* 0 where the font has none for the unit */
    uint32_t advance;    /* in font units */
    uint32_t selector;   /* the unit's variation selector, 0 without one */
};

/* A line of tt_draw_lines. */
struct tt_line {
    struct tt_picture picture;
    uint64_t at; /* where its rows begin, in bytes from the start of the room */
};

/* The bitmap of a glyph: the least box that holds its ink, from the pen and the base line. Unused fields are 0. */
struct tt_bitmap {
    uint32_t glyph;   /* the number, as asked for */
    uint32_t status;  /* TT_DONE; TT_FONT: the glyph has a defect; TT_JOB: no such glyph, or its ink is too large */
    uint32_t number;  /* the refusal; with TT_DONE not 0 where its program was refused, and the glyph is unfitted */
    uint8_t table[4]; /* the tag of the table that has the defect; no zero at the end */
    uint32_t offset;  /* the defect's offset in it, in bytes */
    uint32_t advance; /* columns to the next pen, without kerning */
    int32_t left;     /* columns from the pen to the first column of ink, rightwards */
    int32_t top;      /* rows from the base line up to the upper edge of the highest row of ink */
    uint32_t width;   /* columns of ink, at most 16,384; 0, as left, top and height, where nothing is black */
    uint32_t height;  /* rows of ink, at most 4,096 */
    int64_t advance_64ths; /* the distance of the advance's two ends as programs leave them, in 64ths of a pixel */
    uint64_t at;      /* where its rows begin, in bytes from the start of the room */
};

/* The picture of a text without its ink, and what a next line needs. */
struct tt_layout {
    uint32_t width;      /* of the picture that does not grow, 1 to 16,384 */
    uint32_t height;     /* 1 to 4,096 */
    int64_t baseline;    /* rows above the base line, which may lie outside the picture */
    int64_t rise;        /* rows of a line above its base line, without a margin */
    int64_t depth;       /* rows of a line below its base line, without a margin */
    uint64_t gap;        /* rows between two lines, by the font's line_gap */
    uint64_t step;       /* rows from one base line to the next, at least 1 */
    uint64_t characters; /* the units of the text */
};

/* The pen of a unit of a text. */
struct tt_pen {
    uint32_t code_point; /* the character's */
    uint32_t selector;   /* the unit's variation selector, 0 without one */
    uint32_t glyph;      /* 0 where the font has none for the unit */
    uint32_t advance;    /* columns to the next pen */
    int64_t pen;         /* the column of the picture, margin included */
    uint64_t offset;     /* where the unit begins, in bytes from the start of the text */
};

/* The underline of a font at a size, by the table post. All is 0 where the font tells none. */
struct tt_underline {
    uint64_t exists;    /* 0: the font tells none */
    int64_t top;        /* rows from the base line up to the upper edge, so mostly negative */
    uint64_t thickness; /* rows, at least 1 */
};

/* A font at a size, without a text. */
struct tt_strike {
    int64_t rise;  /* rows of a line above its base line, without a margin */
    int64_t depth; /* rows of a line below its base line, without a margin */
    uint64_t gap;  /* rows between two lines, by the font's line_gap */
    uint64_t step; /* rows from one base line to the next, at least 1 */
    struct tt_underline underline;
};

/*
 * The version of the library, in the form of TT_RENDER_VERSION. It takes no memory.
 */
uint32_t tt_version(void);

/*
 * Whether the processor has what the code of the other calls needs: 1, or 0 where no other call may come. It takes no
 * memory and runs on every processor. processor.c has it, outside of the proofs.
 */
int tt_supported(void);

/*
 * Counts the faces of a font file: 1, or those of a collection. A face that is counted may still be refused. The file is
 * refused where it has no face 0. It takes no memory. count: faces.
 */
uint32_t tt_faces(const uint8_t *font, size_t font_bytes, struct tt_answer *answer);

/*
 * Tells the axes of a variable font, in the order of its table fvar: at most 64. face is n + 1 for face n, as in a job.
 * A font whose table fvar is missing or has a defect tells no axis and no instance; a job with an instance reports the
 * defect. It takes some memory. Of the refusals of a job none occurs. count: axes.
 */
uint32_t tt_axes(const uint8_t *font, size_t font_bytes, uint32_t face, struct tt_axis_range *axes, size_t room,
                 struct tt_answer *answer);

/*
 * Tells the named instances of a variable font, as Bold, in the order of its table fvar: the first 256. All else is as
 * in tt_axes. count: instances.
 */
uint32_t tt_instances(const uint8_t *font, size_t font_bytes, uint32_t face, struct tt_instance *instances, size_t room,
                      struct tt_answer *answer);

/*
 * Tests the tables that every text needs, and fills told with the font's figures. It takes no memory. tt_open_face does
 * so for a face: n + 1 for face n, as in a job.
 */
uint32_t tt_open(const uint8_t *font, size_t font_bytes, struct tt_font *told, struct tt_answer *answer);
uint32_t tt_open_face(const uint8_t *font, size_t font_bytes, uint32_t face, struct tt_font *told,
                      struct tt_answer *answer);

/*
 * The glyph and the advance of each unit of a text, in order. The room holds as many entries as the text has units,
 * which are at most as many as its bytes. It takes no memory. Of the refusals of a job only 61, a text that is too long,
 * occurs. tt_map_face does so for a face: n + 1 for face n, as in a job. count: units.
 *
 * tt_map_job does so by a job, at its instance: of the job face, instance, axes and axis are looked at, and fit for the
 * way in which the font is read. The units and their glyphs are those of tt_pens for this job. It takes some memory.
 */
uint32_t tt_map(const uint8_t *font, size_t font_bytes, const uint8_t *text, size_t text_bytes,
                struct tt_glyph *glyphs, size_t room, struct tt_answer *answer);
uint32_t tt_map_face(const uint8_t *font, size_t font_bytes, uint32_t face, const uint8_t *text, size_t text_bytes,
                     struct tt_glyph *glyphs, size_t room, struct tt_answer *answer);
uint32_t tt_map_job(const uint8_t *font, size_t font_bytes, const uint8_t *text, size_t text_bytes,
                    const struct tt_job *job, struct tt_glyph *glyphs, size_t room, struct tt_answer *answer);

/*
 * The size of a text's picture, its base line and the box of its ink.
 */
uint32_t tt_measure(const uint8_t *font, size_t font_bytes, const uint8_t *text, size_t text_bytes,
                    const struct tt_job *job, struct tt_measure *told, struct tt_answer *answer);

/*
 * The place of each unit of a text in its picture. A piece of the text from the offset of a unit up to the next one, or
 * from the last one to the end, has that unit alone. count: units.
 */
uint32_t tt_characters(const uint8_t *font, size_t font_bytes, const uint8_t *text, size_t text_bytes,
                       const struct tt_job *job, struct tt_character *characters, size_t room,
                       struct tt_answer *answer);

/*
 * Tells a font at a size, without a text: the rows of its lines, as tt_layout tells them of each text, and its
 * underline. The place and the thickness of the underline are each rounded to the nearest row, a half up. A font whose
 * table post is missing, cut off or has a thickness of at most 0 tells none. Of the job kern and grow are not looked
 * at. It takes no memory.
 */
uint32_t tt_strike(const uint8_t *font, size_t font_bytes, const struct tt_job *job, struct tt_strike *told,
                   struct tt_answer *answer);

/*
 * Lays out a text, and draws no ink: the size of the picture that does not grow, its base line, and the rows to a next
 * line. Where tt_measure is done without grow, width, height and baseline are equal to those of tt_measure. A text of n
 * lines takes (n - 1) * step + rise + depth rows. grow is not looked at. Without TT_BEST and without an instance no
 * memory is taken and no glyph is looked at, so a font with damaged glyphs is laid out too. With TT_BEST the advances
 * are those of the fitted glyphs, which are made.
 */
uint32_t tt_layout(const uint8_t *font, size_t font_bytes, const uint8_t *text, size_t text_bytes,
                   const struct tt_job *job, struct tt_layout *told, struct tt_answer *answer);

/*
 * The pen of each unit of a text, in order, as tt_layout lays the text out, and offsets as tt_characters has them.
 * The first pen is the margin; each other is
 * the pen before it and the advance there. The room holds as many entries as the text has units, which are at most as
 * many as its bytes. It takes some memory. count: units.
 */
uint32_t tt_pens(const uint8_t *font, size_t font_bytes, const uint8_t *text, size_t text_bytes,
                 const struct tt_job *job, struct tt_pen *pens, size_t room, struct tt_answer *answer);

/*
 * Draws a text: the rows of its picture, the highest first, row_bytes each. The leftmost pixel is the highest bit of
 * the first byte; 1 is black, and the bits after the last pixel are 0. With the header "P4\n<width> <height>\n" before
 * them the rows are the file that the program writes for this font, text and job. bytes and count: of the rows.
 */
uint32_t tt_draw(const uint8_t *font, size_t font_bytes, const uint8_t *text, size_t text_bytes,
                 const struct tt_job *job, uint8_t *rows, size_t room, struct tt_picture *told,
                 struct tt_answer *answer);

/*
 * Draws a band of the picture that tt_draw draws: at most count rows from row first on, as many as the picture has. The
 * rows before the band are passed over. told describes the whole picture. bytes and count: of the band.
 */
uint32_t tt_draw_band(const uint8_t *font, size_t font_bytes, const uint8_t *text, size_t text_bytes,
                      const struct tt_job *job, uint32_t first, uint32_t count, uint8_t *rows, size_t room,
                      struct tt_picture *told, struct tt_answer *answer);

/*
 * Draws a label: a text of several lines in one picture, for people. This is the picture that the program's command
 * label writes for this font, text and job. rows and room, bytes and count are as those of tt_draw.
 *
 * A line feed ends a line, and a carriage return just before it is no part of the line. A first U+FEFF is no part of the
 * text. A text without a character is one empty line. A picture has at least one column and one row, so that no text is
 * empty. From one base line to the next are step rows, as tt_strike tells them for the size that was drawn.
 *
 * Two characters beside each other that are the canonical composition of one that the font has are drawn as that one, a
 * letter and its accent for instance. Nothing is reordered. The text's 4,096 characters are counted before.
 */
uint32_t tt_label(const uint8_t *font, size_t font_bytes, const uint8_t *text, size_t text_bytes,
                  const struct tt_label_job *job, uint8_t *rows, size_t room, struct tt_label *told,
                  struct tt_answer *answer);

/*
 * Draws lines one after the other, each as tt_draw does. The font is opened once and its programs run once. Between
 * lines at most keep bytes of glyphs are cached; 1 << 20 is enough for most fonts. With TT_BEST a cached glyph takes its
 * cost from each line's budget again, so that a line is drawn or refused as by tt_draw.
 *
 * Line i begins in texts where the line before it ends, and ends before ends[i]. rows gets the rows of all lines one
 * after the other, and lines[i] describes line i.
 *
 * Where the job's blank is not 0, a line without a byte is blank: a picture of no column and no row, whose base line is
 * 0, in no byte of rows. Then tt_strike tells how far the next line is. Else such a line is drawn as tt_draw draws it,
 * which without a margin refuses it (62).
 *
 * With TT_BEST the lines of a call share a budget. A line after which no budget is left is still drawn; the next one is
 * refused with number 65.
 *
 * A refused line stops the call: count lines before it are drawn, in bytes bytes of rows, and all memory after these
 * is unchanged. With TT_ROOM bytes is the room that these lines and the next one need; tt_lines_room tells that of all
 * lines. Where ends[i] is less than the end before it or more than text_bytes, the line is refused with number 67.
 * Where the way to fit, size, margin and font are accepted and lines_room is less than ends_count, nothing is drawn,
 * with TT_ROOM, bytes 0 and count ends_count.
 */
uint32_t tt_draw_lines(const uint8_t *font, size_t font_bytes, const uint8_t *texts, size_t text_bytes,
                       const uint64_t *ends, size_t ends_count, const struct tt_job *job, size_t keep, uint8_t *rows,
                       size_t room, struct tt_line *lines, size_t lines_room, struct tt_answer *answer);

/*
 * The room that tt_draw_lines needs for the rows of all lines, before there is any. Job and lines are as there. bytes
 * is the exact number: this room is enough, and each smaller one is answered with TT_ROOM. count: lines.
 * Bytes past 2^64 - 1 are told as 2^64 - 1.
 *
 * A refused line stops the call as it stops tt_draw_lines: count is the lines before it, and bytes are those of their
 * rows. The call makes the glyphs as tt_draw_lines does, and no row.
 */
uint32_t tt_lines_room(const uint8_t *font, size_t font_bytes, const uint8_t *texts, size_t text_bytes,
                       const uint64_t *ends, size_t ends_count, const struct tt_job *job, size_t keep,
                       struct tt_answer *answer);

/*
 * Makes the bitmaps of a list of glyphs by their numbers, at most 4,096: those that a shaper gives, in the order of the
 * list, and with what repeats in it. Each glyph is made once, with one run of the font's programs. Of the job size,
 * fit, face and the instance count; margin, grow, kern and rounded are not looked at.
 *
 * told gets count entries: entry i is that of glyphs[i]. An entry whose number stood before is equal to the first one.
 * With TT_BEST advance is advance_64ths rounded to the nearest pixel, a half up, or 0 where that is negative. Else
 * advance is the font's own at this size, and advance_64ths that of the outline that was made.
 *
 * rows gets the rows of the numbers that stand first, one glyph after the other, each the highest row first. A row has
 * (width + 7) / 8 bytes. The leftmost pixel is the highest bit of the first byte; 1 is black, and the bits after the
 * last pixel are 0. Row i of a glyph, counted from 0, is top - 1 - i rows above the base line. All rows have at most
 * 32 GiB; a call with a room of 0 tells how many bytes they have.
 *
 * A refused glyph has its refusal in its entry, and the others are made: TT_FONT with a defect of the font, TT_JOB with
 * 68 where the font has no such glyph, TT_JOB with 63 where its ink has more than 16,384 columns or 4,096 rows. The
 * other fields of the entry are 0, except glyph and at.
 *
 * With TT_BEST the work of the whole list is bounded as that of a line: the points, the deltas and the lines of all its
 * glyphs are counted once (65). A glyph for whose programs too little work is left is unfitted, with the number 30.
 *
 * Where told_room is less than count, nothing else is looked at: TT_ROOM, bytes 0, count. Where room is too small for
 * the rows, TT_ROOM, the bytes of all rows, count. bytes and count: of all rows, and of the list. NULL goes with room 0
 * where nothing is to be written.
 */
uint32_t tt_glyphs(const uint8_t *font, size_t font_bytes, const uint32_t *glyphs, size_t count,
                   const struct tt_job *job, uint8_t *rows, size_t room, struct tt_bitmap *told, size_t told_room,
                   struct tt_answer *answer);

/*
 * The message of an answer, for a person: the program's line where there is one, with a zero at its end. bytes counts
 * the zero, and is at most TT_MESSAGE_BYTES: a room of 90 bytes is always enough. told is the answer of another call;
 * answer is another struct, the answer of this call. The call takes some memory, which may be refused too.
 */
#define TT_MESSAGE_BYTES 90
uint32_t tt_message(const struct tt_answer *told, uint8_t *text, size_t room, struct tt_answer *answer);

/*
 * All refusals: X(number, name). From 60 on they refuse the job; the man page of the program explains each.
 *
 * 73 AxesMany: axes is above 16. 26 VariationShape, 27 NoAxis, 28 NoInstance and 29 GlyphVariation come at an instance
 * alone.
 *
 * 69 to 72 come with tt_label alone. 69 WidthRange: the width is above 16,384, or at most both margins. 70 BoxRange: the
 * box has more than 16,384 columns or 4,096 rows, or at most both margins of either, or there is a width too. 71 BoxSmall:
 * the text fits into the box at no size. 72 UnknownAlign: align has another number.
 *
 * 68 GlyphNumber comes in an entry of tt_glyphs alone. For a list of glyphs 65 counts as for a line, but for each glyph
 * once, with the rows of a picture that holds all of it.
 *
 * 65 WorkLarge comes with TT_BEST alone, for one of three counts of a line, or for the lines before it.
 *   - Points: its glyphs, each once, have more than 1,000,000. Each glyph and each component adds four, each contour
 *     one.
 *   - Deltas, at an instance: its glyphs, each once, and the control values have more than 8,000,000: for each tuple of
 *     a glyph its points, contours, components and axes, and four.
 *   - Crossings: its glyphs, at all their places, have more than 10,000,000, or more than the line's work allows. An
 *     edge counts five for each row that it crosses, inside the picture or outside, but at least seven; and one for
 *     each 2,048 rows of its glyph. Each row of the glyph counts one. Where dropouts are filled, each row or column
 *     that an edge crosses counts three more, and one for each 2,048 rows of the glyph. Each 64 bytes of a bitmap of
 *     the glyph then count one. The work allows 500,000, and one for each 4 units that points, deltas and programs
 *     leave of 50,000,000. A point takes 40 units, a delta 4.
 *   - Lines of tt_draw_lines: those before this one took more than 10,000,000 units, and 4,000,000 for each of them. A
 *     line takes the units of its points, deltas and programs, and 4 units for each crossing. The sizes that tt_label
 *     tries for a box are counted as such lines are.
 */
#define TT_REFUSALS(X) \
    X(1, BadVersion) \
    X(2, DirShort) \
    X(3, NoTable) \
    X(4, TableRange) \
    X(5, HeadMagic) \
    X(6, EmRange) \
    X(7, LocaFormat) \
    X(8, MaxpVersion) \
    X(9, MetricsShort) \
    X(10, NoCmap) \
    X(11, CmapShape) \
    X(12, LocaShort) \
    X(13, GlyphRange) \
    X(14, GlyphShort) \
    X(15, ContourOrder) \
    X(16, FlagRun) \
    X(17, ComponentDepth) \
    X(18, ComponentCount) \
    X(19, ComponentGlyph) \
    X(20, MatchPoint) \
    X(21, ScaledOffset) \
    X(22, PointLimit) \
    X(23, CoordRange) \
    X(24, CollectionVersion) \
    X(25, NoFace) \
    X(26, VariationShape) \
    X(27, NoAxis) \
    X(28, NoInstance) \
    X(29, GlyphVariation) \
    X(30, StepLimit) \
    X(31, StackFull) \
    X(32, StackShort) \
    X(33, CallDepth) \
    X(34, BadOpcode) \
    X(35, OffProfile) \
    X(36, JumpRange) \
    X(37, CodeShort) \
    X(38, NoFunction) \
    X(39, DefinitionPlace) \
    X(40, IfOpen) \
    X(41, NoEndf) \
    X(42, PointRange) \
    X(43, ContourRange) \
    X(44, ZoneRange) \
    X(45, CvtRange) \
    X(46, StorageRange) \
    X(47, DivZero) \
    X(48, ValueRange) \
    X(49, Perpendicular) \
    X(50, BadArgument) \
    X(60, SizeRange) \
    X(61, TextLong) \
    X(62, EmptyPicture) \
    X(63, PictureLarge) \
    X(64, MarginRange) \
    X(65, WorkLarge) \
    X(66, UnknownFit) \
    X(67, LineEnds) \
    X(68, GlyphNumber) \
    X(69, WidthRange) \
    X(70, BoxRange) \
    X(71, BoxSmall) \
    X(72, UnknownAlign) \
    X(73, AxesMany)

/*
 * The memory of the library. heap.c has these three functions over malloc, realloc and free. A host with its own heap
 * defines all three itself, and omits heap.o.
 *
 * rattle_alloc makes a block of size bytes. rattle_realloc makes a block into one of size bytes, which may be at
 * another address. Its first kept bytes are unchanged; kept is at most the old size and at most size. rattle_dealloc
 * frees a block.
 *
 * A block is aligned to each power of two up to 16 that divides its size; align is such a power. A size is at most
 * PTRDIFF_MAX. A block of size 0 may be any address but NULL that rattle_realloc and rattle_dealloc accept.
 *
 * got is 1 and block the block, or got is 0 where memory is refused, and block is any address but NULL. Where
 * rattle_realloc refuses, the old block remains, with all its bytes.
 */
struct tt_block {
    uint64_t got;
    void *block;
};

struct tt_block rattle_alloc(size_t size, size_t align);
struct tt_block rattle_realloc(void *block, size_t kept, size_t size, size_t align);
void rattle_dealloc(void *block);

#ifdef __cplusplus
}
#endif

#endif
