/* The functions of bench/baseline.c, baseline_step.c and baseline_tally.c: those of include/cowriestep.h, but for the prefix of their names. */
#ifndef BASELINE_H
#define BASELINE_H

#include "cowriestep.h"

#define BOARD_EVENT(name) name(struct dmm32_board *board, uint16_t *memory, size_t memory_length, uint8_t *eeprom, size_t eeprom_length
#define DECLARE_BASELINE(prefix)                                                                              \
    struct dmm32_board prefix##fresh(uint32_t jumpers, uint32_t zero_scale);                                  \
    uint32_t prefix##fresh_stores(uint16_t *memory, size_t memory_length, uint8_t *eeprom, size_t eeprom_length); \
    bool prefix##is_working(struct dmm32_board board, const uint16_t *memory, size_t memory_length);          \
    uint32_t BOARD_EVENT(prefix##write_byte), uint32_t offset, uint8_t value);                                \
    uint32_t BOARD_EVENT(prefix##read_byte), uint32_t offset);                                                \
    uint32_t BOARD_EVENT(prefix##read_word), uint32_t offset);                                                \
    uint32_t BOARD_EVENT(prefix##conversion_end), int16_t code);                                              \
    uint32_t BOARD_EVENT(prefix##din), uint32_t lines);                                                       \
    uint32_t BOARD_EVENT(prefix##latch), uint32_t level);                                                     \
    uint32_t BOARD_EVENT(prefix##port_a_pins), uint8_t pins);                                                 \
    uint32_t BOARD_EVENT(prefix##port_b_pins), uint8_t pins);                                                 \
    uint32_t BOARD_EVENT(prefix##port_c_pins), uint8_t pins);                                                 \
    uint32_t BOARD_EVENT(prefix##tick));                                                                      \
    uint32_t BOARD_EVENT(prefix##transfer_end))

#define BOARD_READ(name) name(struct dmm32_board board, const uint16_t *memory, size_t memory_length, const uint8_t *eeprom, size_t eeprom_length
#define DECLARE_TIME(prefix)                                                                                  \
    struct dmm32_advanced BOARD_EVENT(prefix##advance), uint32_t ticks);                                      \
    uint32_t BOARD_READ(prefix##ticks_until), uint32_t most)

#define DECLARE_STEP(prefix) uint32_t BOARD_EVENT(prefix##step), struct dmm32_event event)
#define DECLARE_TALLY(prefix)                                                                                 \
    struct dmm32_tally TALLY_READ(prefix##note), struct dmm32_event event);                                   \
    struct dmm32_tally TALLY_READ(prefix##note_ticks), uint32_t ticks);                                       \
    bool prefix##tally_adds_up(struct dmm32_tally tally, struct dmm32_board first, struct dmm32_board now)
#define TALLY_READ(name) name(struct dmm32_tally tally, struct dmm32_board board, const uint16_t *memory, size_t memory_length, const uint8_t *eeprom, size_t eeprom_length

DECLARE_BASELINE(baseline_o2_);
DECLARE_BASELINE(baseline_o3_);
DECLARE_TIME(baseline_o2_time_);
DECLARE_TIME(baseline_o3_time_);
DECLARE_STEP(baseline_o2_step_);
DECLARE_STEP(baseline_o3_step_);
DECLARE_TALLY(baseline_o2_tally_);
DECLARE_TALLY(baseline_o3_tally_);

#endif
