/* Opens a PVR or a KTX file by its header, reads some texels and the whole picture through the calls of plate.h, and prints them. With a
 * number, it prints that level of the file: its sides, where its data stands, and a sum of its picture. Texels are blue first, as plate.h says,
 * unless red first is asked for.
 *
 *   viewer page.pvr
 *   viewer page.ktx
 *   viewer levels.pvr 2
 *   viewer --red-first page.pvr
 *
 * Exit status: 0 the picture is printed; 1 the file or the level is refused, and its number printed; 2 something else went wrong, and standard
 * error says what.
 */
#include <errno.h>
#include <inttypes.h>
#include <stdio.h>
#include <stdlib.h>
#include <string.h>

#include "plate.h"

/* Says what went wrong with what was named, and gives the exit status for it. */
static int fail(const char *name, const char *what)
{
    fprintf(stderr, "viewer: %s: %s\n", name, what);
    return 2;
}

/* Reads a whole file into memory of its own. Answers NULL, or what went wrong. */
static const char *read_file(const char *path, uint8_t **bytes, size_t *len)
{
    FILE *in = fopen(path, "rb");
    const char *wrong = NULL;
    size_t room = 0;

    if (!in)
        return strerror(errno);
    do {
        uint8_t *more = realloc(*bytes, room = 2 * room + 65536);
        if (!more) {
            wrong = "there is not enough memory for the file";
            break;
        }
        *bytes = more;
        *len += fread(more + *len, 1, room - *len, in);
    } while (*len == room);
    if (ferror(in))
        wrong = strerror(errno);
    fclose(in);
    return wrong;
}

/* The mode for data that comes from a file: any number but 0 is the stored mode. */
enum { STORED = 1 };

/* The two orders of a texel's channels: any number but 0 is red first. */
enum { BLUE_FIRST = 0, RED_FIRST = 1 };

/* A file, or one of its levels, if one is asked for: the order that its texels are wanted in, its sides and depth, and the data that is there. */
struct plate {
    const uint8_t *file, *data;
    size_t len, left;
    int is_ktx;
    const uint64_t *level;
    uint32_t order;
    uint64_t width, height;
    uint32_t depth;
};

/* A field of the level or of the header, by the call for the file's kind. Each has the sides, the bits and the data's place at 1 to 4. */
static uint64_t field(const struct plate *p, uint32_t number)
{
    if (p->level)
        return plate_level_field(p->file, p->len, *p->level, number);
    return p->is_ktx ? plate_ktx(p->file, p->len, number) : plate_header(p->file, p->len, number);
}

/* The texel, by the same call for all of them. */
static uint64_t texel(const struct plate *p, uint64_t x, uint64_t y)
{
    return plate_texel(p->data, p->left, p->width, p->height, p->depth, STORED, p->order, x, y);
}

/* The picture, by the call for a level or for the file's kind. */
static uint64_t decode(const struct plate *p, uint32_t *image, size_t room)
{
    if (p->level)
        return plate_level(p->file, p->len, *p->level, p->order, image, room);
    if (p->is_ktx)
        return plate_ktx_picture(p->file, p->len, p->order, image, room);
    return plate_picture(p->data, p->left, p->width, p->height, p->depth, STORED, p->order, image, room);
}

/* Three texels, and one past the corner, which is refused. */
static void print_texels(const struct plate *p)
{
    uint64_t places[4][2] = {{0, 0}, {p->width / 2, p->height / 2}, {p->width - 1, p->height - 1}, {p->width, p->height}};

    for (int i = 0; i < 4; i++) {
        uint64_t answer = texel(p, places[i][0], places[i][1]);
        printf("texel %" PRIu64 " %" PRIu64 ": ", places[i][0], places[i][1]);
        if (answer >> 32)
            printf("refused %" PRIu64 "\n", answer >> 32);
        else
            printf("%08" PRIx32 "\n", (uint32_t)answer);
    }
}

/* What the picture is refused for, however many words are lent: 0 for nothing. With none lent it is 4, unless an earlier one holds; of those
 * behind 4, the first texel has each. */
static uint64_t picture_refused(const struct plate *p)
{
    uint32_t none = 0;
    uint64_t refused = decode(p, &none, 0);
    return refused == 4 ? texel(p, 0, 0) >> 32 : refused;
}

/* The picture, and a sum of its words. Answers the exit status. */
static int print_picture(const char *path, const struct plate *p)
{
    /* So memory is asked for only where it will be used, and sides that are not refused are 65,536 at most: their product does not wrap. */
    uint64_t refused = picture_refused(p), sum = 0;
    if (refused) {
        printf("picture refused %" PRIu64 "\n", refused);
        return 1;
    }
    if (p->width * p->height > SIZE_MAX / sizeof(uint32_t))
        return fail(path, "the picture is larger than this machine's memory can be");
    size_t room = (size_t)(p->width * p->height);
    uint32_t *image = calloc(room, sizeof *image);
    if (!image)
        return fail(path, "there is not enough memory for the picture");
    refused = decode(p, image, room);
    for (size_t i = 0; !refused && i < room; i++)
        sum = sum * 31 + image[i];
    printf("picture refused %" PRIu64 ", sum %016" PRIx64 "\n", refused, sum);
    free(image);
    return refused != 0;
}

/* What the header or the level's description says. */
static void print_description(const struct plate *p, uint64_t bits, uint64_t payload)
{
    if (p->level)
        printf("level %" PRIu64 ": ", *p->level);
    printf("%" PRIu64 " x %" PRIu64 ", %" PRIu64 " bits a texel, data at %" PRIu64, p->width, p->height, bits, payload);
    if (p->level)
        printf(", %" PRIu64 " bytes", field(p, 5));
    else if (p->is_ktx)
        printf(", size word %" PRIu64, field(p, 5));
    printf("\n");
}

/* A file, or the level of it that is asked for, and what the calls make of it. The first bytes say the file's kind, as they do for the
 * program; of a level the calls see to that. Answers the exit status. */
static int print_file(const char *path, const uint8_t *file, size_t len, const uint64_t *level, uint32_t order)
{
    struct plate p = {.file = file, .data = file, .len = len, .level = level, .order = order};
    p.is_ktx = len >= 4 && memcmp(file, "\xABKTX", 4) == 0;
    uint64_t refused = field(&p, 0);
    if (refused) {
        printf("%s refused %" PRIu64 "\n", level ? "level" : "header", refused);
        return 1;
    }
    uint64_t bits = field(&p, 3), payload = field(&p, 4);
    p.width = field(&p, 1);
    p.height = field(&p, 2);
    p.depth = bits == 2;
    if (payload < len) {
        p.data = file + payload;
        p.left = len - (size_t)payload;
    }
    print_description(&p, bits, payload);
    if (!level)
        print_texels(&p);
    return print_picture(path, &p);
}

/* A number of decimal digits. Answers whether it is one that 64 bits hold. */
static int read_number(const char *digits, uint64_t *number)
{
    *number = 0;
    do {
        if (*digits < '0' || *digits > '9')
            return 0;
        uint64_t digit = (uint64_t)(*digits - '0');
        if (*number > (UINT64_MAX - digit) / 10)
            return 0;
        *number = 10 * *number + digit;
    } while (*++digits);
    return 1;
}

static int usage(void)
{
    fprintf(stderr, "usage: viewer [--red-first] PLATE [LEVEL], a PVR or a KTX file, and a level's number\n");
    return 2;
}

int main(int argc, char **argv)
{
    uint8_t *file = NULL;
    size_t len = 0;
    uint64_t level = 0;
    uint32_t order = BLUE_FIRST;

    if (argc > 1 && strcmp(argv[1], "--red-first") == 0) {
        order = RED_FIRST;
        argc--;
        argv++;
    }
    if (argc != 2 && argc != 3)
        return usage();
    if (argc == 3 && !read_number(argv[2], &level)) {
        fail(argv[2], "this is no level's number");
        return usage();
    }
    const char *wrong = read_file(argv[1], &file, &len);
    int status = wrong ? fail(argv[1], wrong) : print_file(argv[1], file, len, argc == 3 ? &level : NULL, order);
    free(file);
    return status;
}
