/* Fields and variables of a grammar by their names, for songrafter_field and
 * songrafter_value. Printed by `names`: to be printed anew where the grammar
 * changes. */
#ifndef RESPONSE_NAMES_H
#define RESPONSE_NAMES_H

#include <stddef.h>
#include <stdint.h>

#define RESPONSE_WEIGHT 13u
/* So many steps decide a frame of so many bits. */
#define RESPONSE_STEPS(bits) (13u * ((uint64_t)(bits) + 1u))
/* So many words are room for the reading of a frame of so many bytes. */
#define RESPONSE_READING_WORDS(bytes) ((size_t)16 * (bytes))

#define RESPONSE_LENGTH_CONSTRUCT 1u /* line 5, column 12 */
#define RESPONSE_LENGTH_WIDTH 8u
#define RESPONSE_LENGTH_VARIABLE 0u
#define RESPONSE_UINT_1_CONSTRUCT 3u /* line 5, column 38 */
#define RESPONSE_UINT_1_WIDTH 8u
#define SUCCESS_UINT_1_CONSTRUCT 10u /* line 9, column 11 */
#define SUCCESS_UINT_1_WIDTH 8u
#define SUCCESS_UINT_2_CONSTRUCT 11u /* line 9, column 27 */
#define SUCCESS_UINT_2_WIDTH 8u
#define MORE_DATA_UINT_1_CONSTRUCT 13u /* line 10, column 13 */
#define MORE_DATA_UINT_1_WIDTH 8u
#define MORE_DATA_UINT_2_CONSTRUCT 14u /* line 10, column 29 */
#define MORE_DATA_UINT_2_WIDTH 8u
#define TRIES_LEFT_UINT_1_CONSTRUCT 16u /* line 11, column 14 */
#define TRIES_LEFT_UINT_1_WIDTH 8u
#define TRIES_LEFT_UINT_2_CONSTRUCT 17u /* line 11, column 30 */
#define TRIES_LEFT_UINT_2_WIDTH 4u
#define TRIES_LEFT_UINT_3_CONSTRUCT 18u /* line 11, column 44 */
#define TRIES_LEFT_UINT_3_WIDTH 4u

#endif
