/* Drops the answer of every call: a compiler must warn of each. */
#include "feedback.h"

void drop(struct feedback_settings settings, struct feedback_handset handset,
          struct feedback_sent_window sent, struct feedback_account account);
void drop(struct feedback_settings settings, struct feedback_handset handset,
          struct feedback_sent_window sent, struct feedback_account account)
{
    feedback_window(settings, 7);
    feedback_answered(settings, 3);
    feedback_resource(settings, 7, 2, 5);
    feedback_inverse(settings, 7, 37);
    feedback_reading(settings, 7, FEEDBACK_NONE, 37, 1, 0);
    feedback_confirmed(settings, 7, sent, 37, 1, 0);
    feedback_open_account(2500);
    feedback_credit(settings, 7, sent, 37, 1, 0, account);
    feedback_claims(settings, 7, NULL, 0, NULL, 0);
    feedback_claims_bits(settings, 7, NULL, 0, NULL, 0);
    feedback_make(settings);
    feedback_change_mode(handset, 1);
    feedback_feed_nothing(handset);
    feedback_silence(handset);
    feedback_feed_grant(handset, 2, 1, 0, 5, 3);
    feedback_feed_scheduled(handset, 2, 1, 0);
    feedback_feed_release(handset, 5, 3);
    feedback_replay_size(NULL, 0);
    feedback_replay(NULL, 0, NULL, 0);
    feedback_record(NULL, 0, 0);
    feedback_trace_write(NULL, 0, NULL, 0);
    feedback_game(9, 5, 4);
    feedback_command(handset, NULL, 0);
    feedback_layout_5();
}
