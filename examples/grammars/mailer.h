/* Fields and variables of a grammar by their names, for songrafter_field and
 * songrafter_value. Printed by `names`: to be printed anew where the grammar
 * changes. */
#ifndef JOB_NAMES_H
#define JOB_NAMES_H

#include <stddef.h>
#include <stdint.h>

#define JOB_WEIGHT 22u
/* So many steps decide a frame of so many bits. */
#define JOB_STEPS(bits) (22u * ((uint64_t)(bits) + 1u))
/* So many words are room for the reading of a frame of so many bytes. */
#define JOB_READING_WORDS(bytes) ((size_t)16 * (bytes))

#define JOB_LITERAL_1_CONSTRUCT 1u /* line 4, column 7 */
#define JOB_LITERAL_1_WIDTH 16u
#define JOB_LINES_CONSTRUCT 2u /* line 4, column 14 */
#define JOB_LINES_WIDTH 8u
#define JOB_LINES_VARIABLE 0u
#define JOB_UINT_1_CONSTRUCT 6u /* line 4, column 67 */
#define JOB_UINT_1_WIDTH 8u
#define LINE_UINT_1_CONSTRUCT 8u /* line 6, column 8 */
#define LINE_UINT_1_WIDTH 8u
#define LINE_LENGTH_CONSTRUCT 9u /* line 6, column 21 */
#define LINE_LENGTH_WIDTH 8u
#define LINE_LENGTH_VARIABLE 1u
#define LINE_UINT_2_CONSTRUCT 11u /* line 6, column 50 */
#define LINE_UINT_2_WIDTH 8u
#define CHECKSUM_UINT_1_CONSTRUCT 12u /* line 7, column 12 */
#define CHECKSUM_UINT_1_WIDTH 16u

#endif
