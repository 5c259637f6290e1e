/*
 * Wrong hosts, for the test: each does one thing as a host must not do it, and the account has to notice. One at most is
 * on, by --fault NAME; docs/HOST.md says what each of them costs.
 */
#ifndef FAULTS_H
#define FAULTS_H

enum fault {
    NO_FAULT,
    KEEPS_LATE,         /* lets a primitive go before the record is kept */
    FRESH_AT_RESTART,   /* makes fresh records when the power is back */
    WITHOUT_ORDER,      /* gives the card a job before the one before it was decided, and acknowledges REPEAT */
    TAKES_FAR_AHEAD,    /* gives the card a job whose number is far ahead */
    TELLS_PROHIBITED,   /* tells PROHIBITED as a refusal without asking what was decided on the job */
    FORGETS_REFUSALS,   /* puts a job to the card that it has refused and told so */
    ACKNOWLEDGES_EARLY, /* acknowledges a job before its decision is kept */
    SILENT_ON_BREAK,    /* tells nobody which jobs were taken in a dialogue that broke */
    NO_ABORT_AT_RESTART, /* loads the records and goes on as if nothing had been lost */
    FORGETS_HIGHEST,    /* makes a fresh record for each dialogue */
    TELLS_ONE_END,      /* tells one end only of a failure of the carrier */
    LOSES_ABORTS,       /* its carrier loses D-ABORTs */
    LOSES_MESSAGES,     /* its carrier loses a message now and then where nothing broke the dialogue */
    TURNS_LINES,        /* its carrier hands over the youngest entry first */
    LOSES_OLDEST,       /* at an abort its carrier loses the oldest entry and not the youngest */
    DROPS_A_BIT,        /* gives the card one bit less than the envelope has */
    MIXES_REFUSALS,     /* tells another refusal than the card's */
    MIXES_KINDS,        /* gives a delivered message back as one to send */
    SILENT_TURN_BACK,   /* its carrier removes a start and tells nobody */
    HANDS_OVER_TWICE,   /* hands the card the same D-DATA twice */
    NUMBERS_ITSELF,     /* a position numbers its messages itself, and does not ask the book */
    CLOSES_ANOTHER_NUMBER, /* closes another number than the reply names */
    CLOSES_TOO_EARLY,   /* closes a number as soon as its message is sent */
    CLOSES_NONE,        /* closes no number */
    FORGETS_NUMBERS,    /* hands over every primitive as one of the dialogue that the record holds */
    LOSES_ANSWERS,      /* its carrier loses a D-START response that says "rejected", as the answer to every forward does */
    DROPS_VERSIONS,     /* does not hand over the version of a D-START */
    FORWARDS_AGAIN,     /* forwards what it has forwarded, when the job comes again */
    ANSWERS_BEFORE_SHOWING, /* lets the answer to a forward go before its user has the message */
    ANSWERS_UNHEARD,    /* lets the answer to D-END go before its user was shown the messages that came before it */
    SHOWS_CLOSED_TWICE, /* shows its user that a dialogue is closed which was closed before, when the carrier fails */
    SHOWS_LATE_ABORT,   /* shows its user an abort that arrives after its own closing call */
    TAKES_ANY_START,    /* hands over a start to the end that starts */
    FAULTS
};

extern enum fault fault_on;

static inline int fault(enum fault f) { return fault_on == f; }

/* the fault of a name, or NO_FAULT; the name of a fault */
enum fault fault_named(const char *name);
const char *fault_name(enum fault f);

#endif
