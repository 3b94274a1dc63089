/* The plate decoder, as C calls it: libcapi.a, which `tools/native capi libcapi.a` writes, has these functions.
 *
 * They take a run of bytes as a pointer and a length, and lent words as a pointer and their number. They keep within both, call nothing but memcpy
 * and memset, and hold nothing back. A refusal is a number, 0 for none:
 *
 *   1  a side is 0                                 4  too few lent words
 *   2  a side is above 65,536                      5  blocks across or down is not a power of two
 *   3  too little data                             6  no such texel or row
 *  11  a file shorter than its header             15  the number of surfaces is not 1
 *  12  not a PVR version 3 file                   16  the number of faces is not 1
 *  13  a pixel format other than 0 to 3           17  the number of levels is 0
 *  14  the texture's depth is not 1               18  flags other than 0 and 2
 *  19  no such level                              20  more levels than the sides allow
 *  31  a KTX file shorter than its header         35  depth or array elements not 0, or faces not 1
 *  32  not a KTX version 1 file                   36  the size word is not the need
 *  33  a KTX file that is not little-endian       37  key/value bytes or size word past the end
 *  34  type or format not 0, or not PVRTC
 *
 * Only the calls for levels answer 19 and 20. The program `plate`, which reads the first level, has neither; it has three more, which no call
 * answers. All of these words stand in docs/refusals.txt too, for the program to say those that it has.
 *
 *  21  metadata or key/value bytes above 4,096    23  a need above 32,768 bytes
 *  22  a side is above 1,024
 *
 * A texel is four channels in a word, and the order, a number, says which of its bytes are blue and red. In order 0, blue first, it is
 * blue + 256 green + 65,536 red + 16,777,216 alpha. Red first, in any other order, it is red + 256 green + 65,536 blue + 16,777,216 alpha: the
 * same word with two bytes exchanged. No refusal depends on the order.
 *
 * Data is blocks of 8 bytes, each for 4 x 4 texels at 4 bits a texel, for 8 x 4 at 2 bits. The mode, a number, says how many there are. In
 * mode 0, the Rust original's, there are as many as cover the picture: a side divided by a block's side, rounded up. In the stored mode, any
 * other number, likewise, but two across and two down at the least, as the published format stores them. So 4 x 4 texels at 4 bits need
 * 8 bytes in mode 0 and 32 in the stored mode. Refusal 3 is for fewer bytes than the mode's blocks have, and 5 counts the mode's blocks.
 *
 * Plates from files want the stored mode. Where one block covers a picture across or down, the file has more blocks than cover it: they share
 * in its colours, and mode 0 would leave them out or take them for others. Every other picture is the same in both modes. The calls that take
 * a file take no mode: they read it as stored.
 */
#ifndef PLATE_H
#define PLATE_H

#include <stddef.h>
#include <stdint.h>

#ifdef __cplusplus
extern "C" {
#endif

/* Texel (x, y) of a picture: the texel in the low 32 bits, the refusal's number above them. Refused, the texel is 0.
 * Depth 0 is 4 bits a texel, any other number 2 bits; mode 0 is the Rust's, any other number the stored one; order 0 is blue first, any other
 * number red first. */
uint64_t plate_texel(const uint8_t *data, size_t len, uint64_t width, uint64_t height, uint32_t depth, uint32_t mode, uint32_t order,
                     uint64_t x, uint64_t y);

/* Row y of a picture into `room` lent words: texel (x, y) at word x, later words stay. Answers the refusal's number; refused, every word
 * stays. */
uint64_t plate_row(const uint8_t *data, size_t len, uint64_t width, uint64_t height, uint32_t depth, uint32_t mode, uint32_t order,
                   uint64_t y, uint32_t *row, size_t room);

/* A whole picture into `room` lent words: texel (x, y) at word y * width + x, later words stay. Answers the refusal's number; refused,
 * every word stays. */
uint64_t plate_picture(const uint8_t *data, size_t len, uint64_t width, uint64_t height, uint32_t depth, uint32_t mode, uint32_t order,
                       uint32_t *image, size_t room);

/* A field of a PVR version 3 file's header. 0: the refusal's number, the first of 11, 12, 18 and 13 to 17, in this order, that holds; 1: width;
 * 2: height; 3: bits a texel, 2 or 4; 4: where the picture's data starts. Fields 1 to 4 of a refused header, and any other field, are 0. */
uint64_t plate_header(const uint8_t *file, size_t len, uint32_t field);

/* A field of a KTX version 1 file's header. 0: the refusal's number, the first of 31, 32, 33, 34, 35 and 37 that holds; 1: width; 2: height;
 * 3: bits a texel, 2 or 4; 4: where the picture's data starts; 5: the size word that stands before it. Fields 1 to 5 of a refused header, and
 * any other field, are 0. */
uint64_t plate_ktx(const uint8_t *file, size_t len, uint32_t field);

/* The picture of a KTX version 1 file into `room` lent words, as plate_picture gives it in the stored mode and the same order. Answers the
 * refusal's number, the first of the header's and then 1, 2, 36, 3, 4 and 5 that holds; refused, every word stays. */
uint64_t plate_ktx_picture(const uint8_t *file, size_t len, uint32_t order, uint32_t *image, size_t room);

/* A field of a level of a PVR or a KTX file, which is told by its first four bytes, as the program tells it. Level 0 is the file's picture, and
 * each later one has the sides of the one before halved, rounded down, and 1 at the least. 0: the refusal's number, the first that holds of the
 * header's (of a KTX file 37 is here for the key/value bytes alone), 1 and 2 for the sides of level 0, 20, 19, and then, of a KTX file, 37 and
 * 36 for this level's size word; 1: width; 2: height; 3: bits a texel, 2 or 4; 4: where the level's data starts; 5: how many bytes it needs.
 * Fields 1 to 5 of a refused level, and any other field, are 0.
 *
 * No words are lent and no data is read, so that field 0 may be 0 of a level that plate_level refuses with 3, 4 or 5, and field 4 may lie past
 * the end of a PVR file. Where a level stands follows from the sides: no other level's size word is read. */
uint64_t plate_level_field(const uint8_t *file, size_t len, uint64_t level, uint32_t field);

/* A level of a PVR or a KTX file into `room` lent words, as plate_picture gives it in the stored mode and the same order. Answers the refusal's
 * number, the first of those of plate_level_field and then 3, 4 and 5 that holds; refused, every word stays. */
uint64_t plate_level(const uint8_t *file, size_t len, uint64_t level, uint32_t order, uint32_t *image, size_t room);

#ifdef __cplusplus
}
#endif

#endif
