/* What the shared library has beside the proved functions: the sentences, for languages that cannot include a header. */
#include "../include/capellanote_sentence.h"

const char *capellanote_sentence_of(capellanote_size number)
{
    return capellanote_sentence(number);
}
