/* Included by the programs that load texts of S-records: lines that are refused, each with its refusal and the values of it. The last one is
 * refused after two data records. */
static const struct {
    const char *line;
    uint32_t why;
    uint16_t a, b;
} bad_srecords[] = {
    {":00000001FF", IHEX_MISSING_START_CODE, 0, 0},
    {"s9030000FC", IHEX_MISSING_START_CODE, 0, 0},
    {"S1030000G", IHEX_CONTAINS_INVALID_CHARACTERS, 8, 0},
    {"S9030000FC ", IHEX_CONTAINS_INVALID_CHARACTERS, 10, 0},
    {"S", IHEX_RECORD_TOO_SHORT, 0, 0},
    {"S1030000F", IHEX_RECORD_TOO_SHORT, 0, 0},
    {"S9030000FD0", IHEX_RECORD_NOT_EVEN_LENGTH, 0, 0},
    {"S9030000FD", IHEX_CHECKSUM_MISMATCH, 0xFC, 0xFD},
    {"S1020000FD", IHEX_PAYLOAD_LENGTH_MISMATCH, 0, 0},
    {"S6030000FC", IHEX_UNSUPPORTED_RECORD_TYPE, 6, 0},
    {"S904000000FB", IHEX_INVALID_LENGTH_FOR_TYPE, 0, 0},
    {"S5030009F3", IHEX_COUNT_MISMATCH, 9, 2},
};
