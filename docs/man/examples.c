/*
 * The examples of the manual pages, as one program that runs: each stands between its mark and the next empty comment. tools/reference
 * takes them from here, and tests/manual builds and runs this file.
 */
#include <peatribbon_names.h>
#include <stdio.h>
#include <stdlib.h>
#include <string.h>

/* What the example before it said is so. */
static void so(int is, int line)
{
    if (!is) {
        printf("examples.c:%d: it is not so\n", line);
        exit(1);
    }
}
#define SO(is) so(is, __LINE__)

static uint8_t air[PEAT_RECORD_BYTES], ground[PEAT_RECORD_BYTES], centre[PEAT_RECORD_BYTES], neighbour[PEAT_RECORD_BYTES];
static uint8_t apdu[PEAT_BUFFER_LEAST], data[PEAT_BUFFER_LEAST], out[PEAT_BUFFER_LEAST], user_data[PEAT_BUFFER_LEAST];
static uint8_t mail[PEAT_MAIL_BYTES], job[PEAT_JOB_BYTES], book[PEAT_BOOK_BYTES], message[PEAT_INNER_BYTES], text[PEAT_BUFFER_LEAST];
static const uint8_t bits[] = {0xF4, 0x00};
static const struct peat_data one = {.message = bits, .message_len = sizeof bits, .message_bits = 12};
static size_t bytes;
static struct peat_answer answer;

/* What a call left in buffer apdu goes to the other end. */
static void carry(void)
{
    bytes = peat_apdu_bytes(answer);
    memcpy(user_data, apdu, bytes);
}

static void open_dialogue(uint64_t number, uint64_t mode)
{
    answer = peat_start(PEAT_ARRAY(air), number, mode, PEAT_CLASS_ANY, PEAT_NO_SECURITY, PEAT_NO_DATA, PEAT_BUFFERS(apdu, data));
    carry();
    answer = peat_d_start_indication(PEAT_ARRAY(ground), number, PEAT_AIRCRAFT, PEAT_NO_SECURITY, PEAT_HIGH_PRIORITY, PEAT_LOW_ERROR_RATE, PEAT_CLASS_ANY, PEAT_NO_VERSION,
        PEAT_USER_DATA, user_data, bytes, PEAT_BUFFERS(apdu, data));
    SO(peat_record_state(ground) == PEAT_START_IND);
}

static void accept_it(uint64_t number)
{
    carry();
    answer = peat_d_start_confirmation(PEAT_ARRAY(air), number, PEAT_ACCEPTED, PEAT_DS_USER, PEAT_NO_SECURITY, PEAT_NO_VERSION, PEAT_USER_DATA, user_data, bytes,
        PEAT_BUFFERS(apdu, data));
    SO(peat_record_state(air) == PEAT_DIALOGUE && peat_record_state(ground) == PEAT_DIALOGUE);
}

static void the_machine(void)
{
    /* peat_fresh */
    struct peat_outcome made = peat_fresh(PEAT_ARRAY(ground), PEAT_GROUND, PEAT_NO_SECURITY, PEAT_FORWARDS_NOT, 1, PEAT_PROTECTED);
    if (peat_refusal(made) != PEAT_TAKEN)
        puts("one of the five is none of its codes");
    /**/
    SO(peat_refusal(made) == PEAT_TAKEN && peat_record_state(ground) == PEAT_IDLE);
    peat_fresh(PEAT_ARRAY(air), PEAT_AIR, PEAT_NO_SECURITY, PEAT_FORWARDS_NOT, 1, PEAT_PROTECTED);

    /* peat_start */
    answer = peat_start(PEAT_ARRAY(air), 1, PEAT_CPDLC, PEAT_CLASS_ANY, PEAT_NO_SECURITY, PEAT_NO_DATA, PEAT_BUFFERS(apdu, data));
    if (peat_refusal(answer) == PEAT_TAKEN)
        printf("%s with %u bytes of user data\n", peat_invoked_name(peat_invoked(answer)), (unsigned)peat_apdu_bytes(answer));
    /**/
    SO(peat_refusal(answer) == PEAT_TAKEN && peat_invoked(answer) == PEAT_D_START_REQUEST);
    carry();

    /* peat_d_start_indication */
    answer = peat_d_start_indication(PEAT_ARRAY(ground), 1, PEAT_AIRCRAFT, PEAT_NO_SECURITY, PEAT_HIGH_PRIORITY, PEAT_LOW_ERROR_RATE,
        PEAT_CLASS_ANY, PEAT_NO_VERSION, PEAT_USER_DATA, user_data, bytes, PEAT_BUFFERS(apdu, data));
    if (peat_told(answer) == PEAT_START_INDICATION)
        puts("the user is asked, and answers with peat_start_response");
    /**/
    SO(peat_told(answer) == PEAT_START_INDICATION);

    /* peat_start_response */
    answer = peat_start_response(PEAT_ARRAY(ground), PEAT_ACCEPTED, PEAT_NO_DATA, PEAT_BUFFERS(apdu, data));
    if (peat_refusal(answer) == PEAT_TAKEN)
        printf("%s\n", peat_state_name(peat_record_state(ground))); /* DIALOGUE */
    /**/
    SO(peat_record_state(ground) == PEAT_DIALOGUE);
    carry();

    /* peat_d_start_confirmation */
    answer = peat_d_start_confirmation(PEAT_ARRAY(air), 1, PEAT_ACCEPTED, PEAT_DS_USER, PEAT_NO_SECURITY, PEAT_NO_VERSION, PEAT_USER_DATA,
        user_data, bytes, PEAT_BUFFERS(apdu, data));
    if (peat_told(answer) == PEAT_START_CONFIRMATION)
        printf("%s\n", peat_state_name(peat_record_state(air))); /* DIALOGUE */
    /**/
    SO(peat_record_state(air) == PEAT_DIALOGUE);

    /* peat_message_request */
    answer = peat_message_request(PEAT_ARRAY(ground), 7, PEAT_DATA(one), PEAT_BUFFERS(apdu, data));
    if (peat_refusal(answer) == PEAT_REPEAT)
        puts("job 7, or a later one, was taken before");
    /**/
    SO(peat_invoked(answer) == PEAT_D_DATA_REQUEST && peat_record_highest(ground) == 7);
    carry();

    /* peat_d_data_indication */
    answer = peat_d_data_indication(PEAT_ARRAY(air), 1, PEAT_USER_DATA, user_data, bytes, PEAT_BUFFERS(apdu, data));
    if (peat_told(answer) == PEAT_MESSAGE_INDICATION)
        printf("%u bits of message data for the user\n", peat_data_bits(answer));
    /**/
    SO(peat_told(answer) == PEAT_MESSAGE_INDICATION);

    /* peat_data_part */
    struct peat_part_answer part = peat_data_part(PEAT_PART_MESSAGE, data, peat_data_bytes(answer), PEAT_ARRAY(out));
    if (peat_refusal(part) == PEAT_TAKEN && peat_part_given(part))
        printf("a message of %u bits\n", peat_part_bits(part));
    /**/
    SO(peat_part_bits(part) == 12 && out[0] == 0xF4);

    /* peat_end_request */
    answer = peat_end_request(PEAT_ARRAY(ground), PEAT_NO_DATA, PEAT_BUFFERS(apdu, data));
    if (peat_refusal(answer) == PEAT_PROHIBITED)
        puts("there is no dialogue to end");
    /**/
    SO(peat_invoked(answer) == PEAT_D_END_REQUEST);
    carry();

    /* peat_d_end_indication */
    answer = peat_d_end_indication(PEAT_ARRAY(air), 1, PEAT_USER_DATA, user_data, bytes, PEAT_BUFFERS(apdu, data));
    if (peat_told(answer) == PEAT_END_INDICATION)
        puts("the user is asked, and answers with peat_end_response");
    /**/
    SO(peat_told(answer) == PEAT_END_INDICATION);

    /* peat_end_response */
    answer = peat_end_response(PEAT_ARRAY(air), PEAT_ACCEPTED, PEAT_NO_DATA, PEAT_BUFFERS(apdu, data));
    if (peat_refusal(answer) == PEAT_TAKEN)
        printf("%s\n", peat_state_name(peat_record_state(air))); /* IDLE */
    /**/
    SO(peat_record_state(air) == PEAT_IDLE);
    carry();

    /* peat_d_end_confirmation */
    answer = peat_d_end_confirmation(PEAT_ARRAY(ground), 1, PEAT_ACCEPTED, PEAT_USER_DATA, user_data, bytes, PEAT_BUFFERS(apdu, data));
    if (peat_told(answer) == PEAT_END_CONFIRMATION)
        printf("%s\n", peat_state_name(peat_record_state(ground))); /* IDLE */
    /**/
    SO(peat_record_state(ground) == PEAT_IDLE);
}

static void the_downstream_mode(void)
{
    open_dialogue(2, PEAT_DSC);

    /* peat_dsc_start_response */
    answer = peat_dsc_start_response(PEAT_ARRAY(ground), PEAT_ACCEPTED, PEAT_NO_DATA, PEAT_BUFFERS(apdu, data));
    if (peat_refusal(answer) == PEAT_TAKEN)
        printf("%s\n", peat_state_name(peat_record_state(ground))); /* DIALOGUE */
    /**/
    SO(peat_refusal(answer) == PEAT_TAKEN);
    accept_it(2);

    /* peat_dsc_end_request */
    answer = peat_dsc_end_request(PEAT_ARRAY(air), PEAT_NO_DATA, PEAT_BUFFERS(apdu, data));
    if (peat_refusal(answer) == PEAT_PROHIBITED)
        puts("there is no dialogue in this mode to end");
    /**/
    SO(peat_invoked(answer) == PEAT_D_END_REQUEST);
    carry();
    answer = peat_d_end_indication(PEAT_ARRAY(ground), 2, PEAT_USER_DATA, user_data, bytes, PEAT_BUFFERS(apdu, data));

    /* peat_dsc_end_response */
    answer = peat_dsc_end_response(PEAT_ARRAY(ground), PEAT_ACCEPTED, PEAT_NO_DATA, PEAT_BUFFERS(apdu, data));
    if (peat_refusal(answer) == PEAT_TAKEN)
        printf("%s\n", peat_state_name(peat_record_state(ground))); /* IDLE */
    /**/
    SO(peat_record_state(ground) == PEAT_IDLE);
    carry();
    answer = peat_d_end_confirmation(PEAT_ARRAY(air), 2, PEAT_ACCEPTED, PEAT_USER_DATA, user_data, bytes, PEAT_BUFFERS(apdu, data));
    SO(peat_record_state(air) == PEAT_IDLE);
}

static void the_aborts(void)
{
    open_dialogue(3, PEAT_CPDLC);
    answer = peat_start_response(PEAT_ARRAY(ground), PEAT_ACCEPTED, PEAT_NO_DATA, PEAT_BUFFERS(apdu, data));
    accept_it(3);

    /* peat_user_abort */
    answer = peat_user_abort(PEAT_ARRAY(ground), PEAT_COMMANDED_TERMINATION, PEAT_BUFFERS(apdu, data));
    if (peat_refusal(answer) == PEAT_TAKEN)
        printf("%s\n", peat_invoked_name(peat_invoked(answer))); /* D-ABORT request */
    /**/
    SO(peat_invoked(answer) == PEAT_D_ABORT_REQUEST);
    carry();

    /* peat_d_abort_indication */
    answer = peat_d_abort_indication(PEAT_ARRAY(air), 3, PEAT_USER, PEAT_USER_DATA, user_data, bytes, PEAT_BUFFERS(apdu, data));
    if (peat_told(answer) == PEAT_USER_ABORT_INDICATION)
        printf("%s\n", peat_user_reason_name(peat_told_parameter(answer)));
    /**/
    SO(peat_record_state(air) == PEAT_IDLE);

    answer = peat_start(PEAT_ARRAY(air), 4, PEAT_CPDLC, PEAT_CLASS_ANY, PEAT_NO_SECURITY, PEAT_NO_DATA, PEAT_BUFFERS(apdu, data));

    /* peat_timer_expiry */
    answer = peat_timer_expiry(PEAT_ARRAY(air), PEAT_BUFFERS(apdu, data));
    if (peat_refusal(answer) == PEAT_PROHIBITED)
        puts("t-start does not run");
    /**/
    SO(peat_record_state(air) == PEAT_IDLE);

    answer = peat_start(PEAT_ARRAY(air), 5, PEAT_CPDLC, PEAT_CLASS_ANY, PEAT_NO_SECURITY, PEAT_NO_DATA, PEAT_BUFFERS(apdu, data));

    /* peat_d_p_abort_indication */
    answer = peat_d_p_abort_indication(PEAT_ARRAY(air), 5, PEAT_BUFFERS(apdu, data));
    if (peat_refusal(answer) == PEAT_STALE)
        puts("the connection was an old dialogue's");
    /**/
    SO(peat_record_state(air) == PEAT_IDLE);

    answer = peat_start(PEAT_ARRAY(air), 6, PEAT_CPDLC, PEAT_CLASS_ANY, PEAT_NO_SECURITY, PEAT_NO_DATA, PEAT_BUFFERS(apdu, data));

    /* peat_system_error */
    answer = peat_system_error(PEAT_ARRAY(air), PEAT_BUFFERS(apdu, data));
    if (peat_refusal(answer) == PEAT_TAKEN)
        printf("%s\n", peat_state_name(peat_record_state(air))); /* IDLE */
    /**/
    SO(peat_record_state(air) == PEAT_IDLE);
}

static void the_forwards(void)
{
    peat_fresh(PEAT_ARRAY(centre), PEAT_GROUND, PEAT_NO_SECURITY, PEAT_FORWARDS, 1, PEAT_PROTECTED);
    peat_fresh(PEAT_ARRAY(neighbour), PEAT_GROUND, PEAT_NO_SECURITY, PEAT_FORWARDS, 1, PEAT_PROTECTED);

    /* peat_forward_request */
    answer = peat_forward_request(PEAT_ARRAY(centre), 1, PEAT_CLASS_ANY, PEAT_NO_SECURITY, 2026, 11, 16, 14, 30, 0, 6,
        peat_flight("SAS123", 6), 0x4A1B2C, PEAT_FORWARD_DOWNLINK, bits, sizeof bits, 12, PEAT_BUFFERS(apdu, data));
    if (peat_refusal(answer) == PEAT_TAKEN)
        printf("%s with version %u\n", peat_invoked_name(peat_invoked(answer)), peat_version(answer));
    /**/
    SO(peat_invoked(answer) == PEAT_D_START_REQUEST);
    carry();
    answer = peat_d_start_indication(PEAT_ARRAY(neighbour), 1, PEAT_FACILITY, PEAT_NO_SECURITY, PEAT_HIGH_PRIORITY, PEAT_LOW_ERROR_RATE, PEAT_CLASS_ANY, peat_version(answer),
        PEAT_USER_DATA, user_data, bytes, PEAT_BUFFERS(apdu, data));
    SO(peat_told(answer) == PEAT_FORWARD_INDICATION);

    /* peat_read_forward */
    uint8_t heading[PEAT_HEADING_BYTES];
    struct peat_forward_answer parts = peat_read_forward(data, peat_data_bytes(answer), PEAT_ARRAY(heading), PEAT_ARRAY(out), peat_record_type(neighbour));
    if (peat_refusal(parts) == PEAT_TAKEN)
        printf("composed in %u\n", (unsigned)peat_heading_value(heading, PEAT_FORWARD_YEAR));
    /**/
    SO(peat_forward_value(parts) == 12);

    /* peat_forward_part */
    struct peat_forward_answer part = peat_forward_part(PEAT_FORWARD_MESSAGE, data, peat_data_bytes(answer), PEAT_ARRAY(out));
    if (peat_refusal(part) == PEAT_TAKEN)
        printf("a message of %u bits\n", (unsigned)peat_forward_value(part));
    /**/
    SO(peat_forward_value(part) == 12);
}

static void the_apdus(void)
{
    peat_fresh(PEAT_ARRAY(air), PEAT_AIR, PEAT_NO_SECURITY, PEAT_FORWARDS_NOT, 1, PEAT_PROTECTED);
    answer = peat_start(PEAT_ARRAY(air), 1, PEAT_CPDLC, PEAT_CLASS_ANY, PEAT_NO_SECURITY, PEAT_NO_DATA, PEAT_BUFFERS(apdu, data));
    carry();

    /* peat_read_apdu */
    struct peat_apdu_answer whole = peat_read_apdu(PEAT_AIRCRAFT_PDUS, user_data, bytes);
    if (peat_refusal(whole) != PEAT_TAKEN)
        printf("%s at bit %u\n", peat_refusal_name(peat_refusal(whole)), (unsigned)peat_position(whole));
    else if (peat_apdu_kind(whole) == PEAT_APDU_START)
        puts("a start");
    /**/
    SO(peat_apdu_kind(whole) == PEAT_APDU_START);

    /* peat_read_leading */
    struct peat_apdu_answer leading = peat_read_leading(PEAT_AIRCRAFT_PDUS, user_data, 1);
    if (peat_refusal(leading) == PEAT_TAKEN && peat_apdu_kind(leading) == PEAT_APDU_START)
        puts("a start, if it is anything");
    /**/
    SO(peat_apdu_kind(leading) == PEAT_APDU_START);
}

static void the_envelopes(void)
{
    static uint8_t envelope[PEAT_BUFFER_LEAST];

    /* peat_write_envelope */
    struct peat_written_envelope written = peat_write_envelope(PEAT_ENVELOPE_TO_SEND, 7, 12, PEAT_ARRAY(bits), PEAT_ARRAY(envelope));
    if (peat_refusal(written) == PEAT_TAKEN)
        bytes = peat_written_bytes(written);
    /**/
    SO(peat_refusal(written) == PEAT_TAKEN);

    /* peat_read_envelope */
    struct peat_envelope_answer found = peat_read_envelope(envelope, bytes, PEAT_ARRAY(job));
    if (peat_refusal(found) == PEAT_TAKEN)
        printf("job %llu, a body of %u bits from byte %u on\n", (unsigned long long)peat_job_number(job), peat_envelope_bits(found),
            (unsigned)peat_envelope_body(found));
    /**/
    SO(peat_job_number(job) == 7 && peat_envelope_bits(found) == 12);

    /* peat_mail_fresh */
    if (peat_refusal(peat_mail_fresh(PEAT_ARRAY(mail))) != PEAT_TAKEN)
        puts("mail is not of PEAT_MAIL_BYTES bytes");
    /**/

    /* peat_mail_take */
    uint8_t taken[PEAT_JOB_BYTES];
    struct peat_envelope_answer came = peat_mail_take(PEAT_ARRAY(mail), envelope, bytes, PEAT_ARRAY(taken));
    if (peat_refusal(came) != PEAT_TAKEN)
        printf("refused from byte %llu on\n", (unsigned long long)peat_mail_place(mail));
    else if (peat_envelope_kind(came) != 0)
        printf("job %llu is there\n", (unsigned long long)peat_job_number(taken));
    /**/
    SO(peat_job_number(taken) == 7 && peat_mail_taken(came) == bytes);

    /* peat_mail_end */
    if (peat_refusal(peat_mail_end(PEAT_ARRAY(mail))) == PEAT_CUT)
        puts("the input ended inside an envelope");
    /**/

    /* peat_compare */
    static uint8_t left[PEAT_LIST_MOST], right[PEAT_LIST_MOST], twice[PEAT_LIST_MOST], counts[PEAT_COUNTS_BYTES];
    struct peat_compare_answer said = peat_compare(envelope, bytes, NULL, 0, PEAT_ARRAY(left), PEAT_ARRAY(right), PEAT_ARRAY(twice), PEAT_ARRAY(counts));
    struct peat_comparison compared = peat_comparison_of(said, counts);
    if (compared.only_first > 0)
        printf("job %llu is in the first alone\n", (unsigned long long)peat_job_number(left));
    /**/
    SO(compared.only_first == 1 && !peat_comparison_equal(&compared));
}

static void the_message(void)
{
    /* peat_write_message */
    memset(message, 0, sizeof message);
    peat_put_two_bytes(message + PEAT_INNER_YEAR, 2026);
    message[PEAT_INNER_MONTH] = 11, message[PEAT_INNER_DAY] = 16;
    message[PEAT_INNER_COUNT] = 1;
    message[peat_place_at(0) + PEAT_PLACE_NUMBER] = 20; /* uM20 CLIMB TO */
    peat_put_level(message + peat_place_at(0) + PEAT_PLACE_LEVEL, PEAT_FLIGHT_LEVEL, 350);
    struct peat_written_message written = peat_write_message(PEAT_UPLINK, PEAT_ARRAY(message), NULL, 0, PEAT_ARRAY(out));
    if (peat_refusal(written) == PEAT_TAKEN)
        printf("%u bits\n", peat_message_bits(written));
    /**/
    SO(peat_refusal(written) == PEAT_TAKEN);
    bytes = peat_message_bits(written);

    /* peat_read_message */
    struct peat_message_answer read = peat_read_message(PEAT_UPLINK, PEAT_ARRAY(out), bytes, PEAT_ARRAY(message), PEAT_ARRAY(text));
    if (peat_refusal(read) != PEAT_TAKEN)
        printf("%s at bit %u\n", peat_refusal_name(peat_refusal(read)), (unsigned)peat_position(read));
    else
        printf("%u elements\n", message[PEAT_INNER_COUNT]);
    /**/
    SO(peat_refusal(read) == PEAT_TAKEN && message[peat_place_at(0) + PEAT_PLACE_NUMBER] == 20);
}

static void the_book(void)
{
    unsigned number = 0;

    /* peat_book_empty */
    if (peat_refusal(peat_book_empty(PEAT_ARRAY(book))) != PEAT_TAKEN)
        puts("book is not of PEAT_BOOK_BYTES bytes");
    /**/

    /* peat_book_open */
    struct peat_open_answer opened = peat_book_open(PEAT_ARRAY(book), 7);
    if (peat_refusal(opened) == PEAT_TAKEN)
        number = peat_opened_number(opened); /* job 7's message has it */
    /**/
    SO(peat_refusal(opened) == PEAT_TAKEN);

    /* peat_book_job */
    printf("number %u is job %llu's\n", number, (unsigned long long)peat_book_job(PEAT_ARRAY(book), number));
    /**/
    SO(peat_book_job(PEAT_ARRAY(book), number) == 7);

    /* peat_book_count */
    struct peat_count_answer counted = peat_book_count(PEAT_ARRAY(book));
    if (peat_refusal(counted) == PEAT_TAKEN)
        printf("%u numbers are open\n", peat_open_count(counted));
    /**/
    SO(peat_open_count(counted) == 1);

    /* peat_book_close */
    struct peat_outcome closed = peat_book_close(PEAT_ARRAY(book), number);
    if (peat_refusal(closed) == PEAT_NOT_OPEN)
        puts("nobody waits for this reply");
    /**/
    SO(peat_refusal(closed) == PEAT_TAKEN && peat_open_count(peat_book_count(PEAT_ARRAY(book))) == 0);
}

int main(void)
{
    the_machine();
    the_downstream_mode();
    the_aborts();
    the_forwards();
    the_apdus();
    the_envelopes();
    the_message();
    the_book();
    return 0;
}
