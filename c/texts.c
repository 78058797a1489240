/* What the library's version and its numbers are in words. */
#include "wokhleas.h"

const char *wokhleas_version(void) { return WOKHLEAS_VERSION; }

const char *wokhleas_strerror(int status) {
    switch (status) {
    case WOKHLEAS_OK: return "done";
    case WOKHLEAS_NOTHING: return "there is nothing of what was asked for";
    case WOKHLEAS_EARGUMENT: return "an argument is NULL or out of its range";
    case WOKHLEAS_ECLOSED: return "the resolver is closed";
    case WOKHLEAS_EOPEN: return "the resolver is open already";
    case WOKHLEAS_ENOMEM: return "memory was refused";
    case WOKHLEAS_ESYNTAX: return "the text is neither a URI nor a Via";
    case WOKHLEAS_EFULL: return "as many requests are inside as can be";
    case WOKHLEAS_ETAKEN: return "a request of this number is inside";
    case WOKHLEAS_EROOM: return "the buffer is too small";
    default: return "unknown status";
    }
}

const char *wokhleas_strreason(uint32_t reason) {
    switch (reason) {
    case WOKHLEAS_TRANSPORT_UNSUPPORTED: return "the caller has not the transport";
    case WOKHLEAS_TRANSPORT_NOT_SECURE: return "a SIPS URI asks for UDP";
    case WOKHLEAS_NOT_OFFERED: return "the domain does not offer the service";
    case WOKHLEAS_NO_ADDRESS: return "no server has an address of the families";
    default: return "unknown reason";
    }
}
