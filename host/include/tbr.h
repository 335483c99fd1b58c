/*
 * Timber bridge rating after VSN 12-73: the proved functions, for C.
 *
 * Link libjudgement.a for tbr_judge, and libexports.a for tbr_member_loads and tbr_yard; they need
 * nothing but the C library (memcpy and memset).
 *
 * A slice is two arguments, a pointer and the number of elements that it points to. The pointer is
 * never NULL, also where the number is 0, and a pointer to uint64_t is aligned for one. The list
 * overlaps neither file. The functions read the files, write inside the list only, keep no
 * pointer, always return, and share no state: any number of threads may call them.
 *
 * A survey file has 1 to 255 members, a vehicle file 1 to 16 axles, and each is of version 1 or 2:
 * in version 1 the weight of an axle has two bytes, up to 60,000 kgf, in version 2 four, up to
 * 200,000. A vehicle rates alike in both.
 */
#ifndef TBR_H
#define TBR_H

#include <stddef.h>
#include <stdint.h>

#ifdef __cplusplus
extern "C" {
#endif

/*
 * What a judgement gives. Loads are in kgf/m, places are from 1. A member's margin is its permitted
 * load minus its vehicle load, and may be negative.
 *
 * Where a file is refused, refusal is its number and place its member or axle, 0 where the fault is
 * in none, and the rest is 0; the survey's refusal comes before the vehicle's:
 *   1 length, 2 mark or version, 3 count, 4 kind, 5 species, 6 section code, 7 a number outside its
 *   range, 8 an unused field that is not 0, 16 a member before its predecessor in a survey of
 *   version 2, where members stand by kind, then l, then d, each rising.
 * Else refusal and place are 0.
 */
struct tbr_numbers {
    uint64_t refusal;
    uint64_t place;
    uint64_t figure;    /* the least permitted load */
    uint64_t governing; /* the place of the member with the least margin, the first on a tie */
    uint64_t passes;    /* 1 the bridge passes, 0 it does not */
};

/* The same, and the number of members whose loads the list has; 0 where anything is refused. */
struct tbr_loads {
    struct tbr_numbers judged;
    uint64_t members;
};

/*
 * What a yard gives. Where anything is refused, refusal is its number and place its member or axle,
 * 0 where the fault is in none, and the rest is 0; the survey's refusal comes before the yard's.
 * Else refusal and place are 0.
 */
struct tbr_yard_numbers {
    uint64_t refusal;
    uint64_t place;
    uint64_t vehicles; /* the number of vehicles whose answers the list has */
    uint64_t passes;   /* for so many of them the bridge passes */
};

/* Judges the bridge of a survey file for the vehicle of a vehicle file. Any bytes get an answer. */
struct tbr_numbers tbr_judge(const uint8_t *survey, size_t survey_length,
                             const uint8_t *vehicle, size_t vehicle_length);

/*
 * The same, and fills the list: permitted load and vehicle load of member 1, then of member 2, and
 * so on; entries beyond are kept. A member passes where its vehicle load is at most its permitted
 * load. Refused besides, with number 14 and place 0: a list shorter than two entries a member, of
 * which a survey has as many as its byte 5 says; 510 entries are enough for any. Where anything is
 * refused the list is as it was.
 */
struct tbr_loads tbr_member_loads(const uint8_t *survey, size_t survey_length,
                                  const uint8_t *vehicle, size_t vehicle_length,
                                  uint64_t *list, size_t list_length);

/*
 * Judges the bridge of a survey file for every vehicle of a yard: a byte that says how many they
 * are, 1 to 32, then so many vehicle files joined, each of either version and as long as its own
 * version and byte 8 say (9 bytes and 4 an axle, or 6 an axle in version 2), or all that is left
 * where that is fewer. Any bytes get an answer.
 *
 * Fills the list: figure, governing place and 1 where the bridge passes, 0 where it does not, of
 * vehicle 1, then of vehicle 2, and so on; entries beyond are kept. Each is what tbr_judge gives
 * for that vehicle alone. Where anything is refused the list is as it was. The order is:
 *   the survey's own refusals;
 *   number 1, place 0: the yard is empty;
 *   number 3, place 0: its number of vehicles is not 1 to 32;
 *   the first faulty vehicle's own refusal, with its axle as place, not its place in the yard;
 *   number 1, place 0: bytes are left over behind the last vehicle;
 *   number 14, place 0: the list is shorter than three entries a vehicle.
 */
struct tbr_yard_numbers tbr_yard(const uint8_t *survey, size_t survey_length,
                                 const uint8_t *yard, size_t yard_length,
                                 uint64_t *list, size_t list_length);

#ifdef __cplusplus
}
#endif

#endif
