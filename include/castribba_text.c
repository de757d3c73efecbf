/* castribba_text.c: the numbers in words, for programs that print them. It is no part of the archives:
 * compile it beside your own files, as C or as C++. */
#include "castribba_common.h"

const char *castribba_number_text(uint32_t number)
{
    switch (number) {
    case CASTRIBBA_DONE:
        return "done";
    case CASTRIBBA_MALFORMED:
        return "an image is malformed";
    case CASTRIBBA_OVER_LIMIT:
        return "an image is over its longest length or a limit";
    case CASTRIBBA_UNRELATED:
        return "records of an image that belong together do not";
    case CASTRIBBA_TOO_MANY_DOTS:
        return "a clock would have more than 8 dots";
    case CASTRIBBA_TOO_MANY_ENTRIES:
        return "the map would have more than 32 entries";
    case CASTRIBBA_TOO_MANY_VALUES:
        return "an entry would have more than 4 values";
    case CASTRIBBA_TOO_MANY_WAITING:
        return "more than 16 removals would wait";
    case CASTRIBBA_TOO_MANY_KEYS:
        return "a waiting removal would have more than 16 keys";
    case CASTRIBBA_COUNTER_SPENT:
        return "the actor's counter is at its largest";
    case CASTRIBBA_SHORT_BUFFER:
        return "the output buffer is shorter than the answer";
    case CASTRIBBA_GAP:
        return "updates of this actor are missing before this one";
    case CASTRIBBA_DOUBLE_SPENT:
        return "the maps hold one dot under different keys";
    case CASTRIBBA_ENDED:
        return "the reader of pieces has ended, or was not begun";
    case CASTRIBBA_NO_BAY:
        return "there is no such bay";
    case CASTRIBBA_ENDS_ELSEWHERE:
        return "the operations end in another map than theirs";
    case CASTRIBBA_TOO_MANY_OPERATIONS:
        return "the list has more than 32 operations";
    case CASTRIBBA_TOO_MANY_PEERS:
        return "more than 64 peers";
    case CASTRIBBA_FOREIGN:
        return "the update was not made by castribba_update";
    case CASTRIBBA_SEEN:
        return "the update was seen";
    case CASTRIBBA_HOLD:
        return "something that the update's writer had seen is missing";
    default:
        return "a number that this version does not know";
    }
}
