/* Fields and variables of a grammar by their names, for songrafter_field and
 * songrafter_value. Printed by `names`: to be printed anew where the grammar
 * changes. */
#ifndef A_B_NAMES_H
#define A_B_NAMES_H

#include <stddef.h>
#include <stdint.h>

#define A_B_WEIGHT 23u
/* So many steps decide a frame of so many bits. */
#define A_B_STEPS(bits) (23u * ((uint64_t)(bits) + 1u))
/* So many words are room for the reading of a frame of so many bytes. */
#define A_B_READING_WORDS(bytes) ((size_t)16 * (bytes))

#define A_B_C_CONSTRUCT 1u /* line 4, column 7 */
#define A_B_C_WIDTH 8u
#define A_B_C_VARIABLE 0u
#define A_B_UINT_1_CONSTRUCT 4u /* line 4, column 36 */
#define A_B_UINT_1_WIDTH 8u
#define A_B_UINT_1_CONSTRUCT_5 5u /* line 4, column 49 */
#define A_B_UINT_1_WIDTH_5 8u
#define A_B_UINT_1_VARIABLE_5 1u
#define A_B_LITERAL_1_CONSTRUCT 6u /* line 4, column 75 */
#define A_B_LITERAL_1_WIDTH 88u
#define A_B_RANGE_1_CONSTRUCT 7u /* line 4, column 91 */
#define A_B_RANGE_1_WIDTH 8u
#define A_B_C_CONSTRUCT_10 10u /* line 5, column 5 */
#define A_B_C_WIDTH_10 8u
#define A_B_C_VARIABLE_10 2u
#define A_UINT_1_CONSTRUCT 12u /* line 5, column 28 */
#define A_UINT_1_WIDTH 4u
#define A_SINT_1_CONSTRUCT 13u /* line 5, column 44 */
#define A_SINT_1_WIDTH 64u
#define A_D_CONSTRUCT 14u /* line 5, column 60 */
#define A_D_WIDTH 8u
#define A_D_VARIABLE 3u
#define A_UINT_2_CONSTRUCT 15u /* line 5, column 81 */
#define A_UINT_2_WIDTH 8u
#define A_SINT_2_CONSTRUCT 16u /* line 5, column 94 */
#define A_SINT_2_WIDTH 8u
#define A_B_C_CONSTRUCT_18 18u /* line 6, column 5 */
#define A_B_C_WIDTH_18 8u
#define A_B_C_VARIABLE_18 4u
#define A_LITERAL_1_CONSTRUCT 19u /* line 6, column 28 */
#define A_LITERAL_1_WIDTH 16u
#define A_LITERAL_2_CONSTRUCT 20u /* line 6, column 35 */
#define A_LITERAL_2_WIDTH 8u

#endif
