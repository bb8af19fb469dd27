/* Fields and variables of a grammar by their names, for songrafter_field and
 * songrafter_value. Printed by `names`: to be printed anew where the grammar
 * changes. */
#ifndef RECORD_NAMES_H
#define RECORD_NAMES_H

#include <stddef.h>
#include <stdint.h>

#define RECORD_WEIGHT 47u
/* So many steps decide a frame of so many bits. */
#define RECORD_STEPS(bits) (47u * ((uint64_t)(bits) + 1u))
/* So many words are room for the reading of a frame of so many bytes. */
#define RECORD_READING_WORDS(bytes) ((size_t)16 * (bytes))

#define RECORD_UINT_1_CONSTRUCT 1u /* line 5, column 10 */
#define RECORD_UINT_1_WIDTH 8u
#define RECORD_UINT_2_CONSTRUCT 2u /* line 5, column 26 */
#define RECORD_UINT_2_WIDTH 8u
#define PAN_UINT_1_CONSTRUCT 11u /* line 7, column 7 */
#define PAN_UINT_1_WIDTH 8u
#define PAN_SIZE_CONSTRUCT 12u /* line 7, column 23 */
#define PAN_SIZE_WIDTH 8u
#define PAN_SIZE_VARIABLE 0u
#define PAN_UINT_2_CONSTRUCT 14u /* line 7, column 50 */
#define PAN_UINT_2_WIDTH 8u
#define EXPIRY_UINT_1_CONSTRUCT 16u /* line 8, column 10 */
#define EXPIRY_UINT_1_WIDTH 8u
#define EXPIRY_UINT_2_CONSTRUCT 17u /* line 8, column 26 */
#define EXPIRY_UINT_2_WIDTH 8u
#define EXPIRY_UINT_3_CONSTRUCT 18u /* line 8, column 42 */
#define EXPIRY_UINT_3_WIDTH 8u
#define HOLDER_UINT_1_CONSTRUCT 23u /* line 9, column 10 */
#define HOLDER_UINT_1_WIDTH 8u
#define HOLDER_SIZE_CONSTRUCT 24u /* line 9, column 26 */
#define HOLDER_SIZE_WIDTH 8u
#define HOLDER_SIZE_VARIABLE 1u
#define HOLDER_RANGE_1_CONSTRUCT 26u /* line 9, column 53 */
#define HOLDER_RANGE_1_WIDTH 8u
#define DIGITS_UINT_1_CONSTRUCT 28u /* line 10, column 10 */
#define DIGITS_UINT_1_WIDTH 4u
#define DIGITS_UINT_2_CONSTRUCT 29u /* line 10, column 25 */
#define DIGITS_UINT_2_WIDTH 4u
#define END_UINT_1_CONSTRUCT 31u /* line 11, column 7 */
#define END_UINT_1_WIDTH 8u
#define END_UINT_2_CONSTRUCT 32u /* line 11, column 23 */
#define END_UINT_2_WIDTH 8u

#endif
