#include "measure.h"
#include "plain_station.h"

static uint64_t about_weight(uint64_t base, const struct plain_answer *answer)
{
    return base + answer->port + answer->byte2 + answer->byte3 + answer->start + answer->length;
}

static uint64_t take_weight(const struct plain_answer *answer)
{
    switch (answer->kind) {
    case PLAIN_REFUSED: return answer->refusal;
    case PLAIN_REPLY: return about_weight(1000u + answer->dropped, answer);
    case PLAIN_STRAY: return about_weight(2000, answer);
    case PLAIN_PLAIN: return about_weight(3000, answer);
    case PLAIN_EVENT: return about_weight(4000, answer);
    case PLAIN_FAILED: return about_weight(5000u + answer->code + answer->error, answer);
    case PLAIN_RADIO: return 6000u + answer->type + answer->start + answer->length;
    default: return 7000;
    }
}

static uint64_t restore_weight(struct plain_station *station, const uint8_t *text, size_t length)
{
    uint8_t line;
    uint8_t refusal = plain_restore(station, text, length, &line);

    if (refusal == 0)
        return RESTORED;
    return refusal == PLAIN_BROKEN_LINE ? (uint64_t)refusal + (uint64_t)LINE * line : refusal;
}

uint64_t plain_measure(const uint8_t *calls, size_t calls_length, const uint8_t *text, size_t text_length,
                       uint8_t *buffer, size_t buffer_length)
{
    struct plain_station station;
    struct plain_answer answer;
    uint8_t ended[PLAIN_PORTS];
    uint64_t sum = 0;

    plain_fresh(&station);
    for (size_t i = 0; i < calls_length / CALL_SIZE; i++) {
        const uint8_t *call = calls + CALL_SIZE * i;
        const uint8_t *lent = call + CALL_HEAD;
        size_t length = call[1] % CALL_ROOM;
        size_t written = 0;

        switch (call[0]) {
        case TAKE:
            plain_take(&station, lent, length, &answer);
            sum += take_weight(&answer);
            break;
        case REQUEST:
            sum += plain_request(&station, call[2], call[3], call[4], call[5], lent, length, buffer,
                                 buffer_length, 0, &written);
            sum += written;
            break;
        case CANCEL:
            sum += plain_cancel(&station, call[2], call[3], call[4]);
            break;
        case TICK:
            plain_tick(&station, ended);
            for (int j = 0; j < PLAIN_PORTS; j++)
                sum += ended[j];
            break;
        case STORE:
            sum += plain_store(&station, buffer, buffer_length, 0, &written);
            sum += written;
            break;
        case RESTORE:
            sum += restore_weight(&station, text, text_length);
            break;
        default:
            sum += plain_list(&station, buffer, buffer_length, 0, &written);
            sum += written;
            break;
        }
    }
    return sum;
}
