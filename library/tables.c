/* scf_table: the files of tables/, as constants. */
#include "architectures.h"
#include <scf.h>

#define TABLE(of, file, text, first)                                                                                   \
    extern const uint8_t file##_table[], file##_table_end[];                                                           \
    __asm__(".pushsection .rodata\n" #file "_table:\n.incbin \"" #file ".table\"\n" #file "_table_end:\n.popsection");

EACH_ARCHITECTURE(TABLE)

#define ENDS(of, file, text, first) [SCF_TABLE_##of] = {file##_table, file##_table_end},

const uint8_t *scf_table(uint32_t architecture, size_t *size) {
    static const uint8_t *const ends[SCF_ARCHITECTURES + 1][2] = {EACH_ARCHITECTURE(ENDS)};
    const uint32_t of = architecture <= SCF_ARCHITECTURES ? architecture : 0;
    *size = (size_t)(ends[of][1] - ends[of][0]);
    return ends[of][0];
}
