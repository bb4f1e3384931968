/* The size of every struct and the place of every field, one line each. */
#define FIELD(type, field) printf("%s.%s at %zu\n", #type, #field, offsetof(type, field))
#define SIZE(type) printf("%s has %zu\n", #type, sizeof(type))

static void layout(void) {
    SIZE(gantsorol_session);
    FIELD(gantsorol_session, n);
    FIELD(gantsorol_session, t);
    FIELD(gantsorol_session, post);
    FIELD(gantsorol_session, points);
    FIELD(gantsorol_session, first);
    FIELD(gantsorol_session, second);
    FIELD(gantsorol_session, marks);
    FIELD(gantsorol_session, factor_a);
    FIELD(gantsorol_session, factor_b);
    FIELD(gantsorol_session, y_a);
    FIELD(gantsorol_session, y_b);
    FIELD(gantsorol_session, barred);
    SIZE(gantsorol_answer);
    FIELD(gantsorol_answer, refusal);
    FIELD(gantsorol_answer, value);
    FIELD(gantsorol_answer, session);
    SIZE(gantsorol_term);
    FIELD(gantsorol_term, coefficient);
    FIELD(gantsorol_term, row);
    FIELD(gantsorol_term, second);
    FIELD(gantsorol_term, first);
    SIZE(gantsorol_number);
    FIELD(gantsorol_number, refusal);
    FIELD(gantsorol_number, value);
    SIZE(gantsorol_written);
    FIELD(gantsorol_written, refusal);
    FIELD(gantsorol_written, len);
    SIZE(gantsorol_line);
    FIELD(gantsorol_line, refusal);
    FIELD(gantsorol_line, letter);
    FIELD(gantsorol_line, row);
    FIELD(gantsorol_line, post);
}
