/* The functions of crates/wokhleas: no pointer here is NULL, and a slice is a pointer and a length. */
#ifndef WOKHLEAS_RAW_H
#define WOKHLEAS_RAW_H

#include "wokhleas.h"

int32_t wokhleas_raw_open(wokhleas_resolver *resolver, size_t requests, size_t questions, bool streams, size_t groups,
                          const uint8_t *seed);
void wokhleas_raw_close(wokhleas_resolver *resolver);
int32_t wokhleas_raw_submit(wokhleas_resolver *resolver, uint64_t number, const uint8_t *text, size_t length,
                            const uint8_t *transports, size_t count, uint8_t families, uint64_t until);
int32_t wokhleas_raw_cancel(wokhleas_resolver *resolver, uint64_t number);
int32_t wokhleas_raw_transmit(wokhleas_resolver *resolver, uint64_t now, uint8_t *octets, size_t room,
                              wokhleas_message *message);
int32_t wokhleas_raw_receive(wokhleas_resolver *resolver, uint64_t now, uint8_t over, const uint8_t *octets,
                             size_t length);
int32_t wokhleas_raw_give_up(wokhleas_resolver *resolver, uint32_t query);
int32_t wokhleas_raw_timeout(wokhleas_resolver *resolver, uint64_t now, uint64_t *left);
int32_t wokhleas_raw_next(wokhleas_resolver *resolver, wokhleas_outcome *outcome);
int32_t wokhleas_raw_get_target(wokhleas_resolver *resolver, size_t index, wokhleas_target *target);
int32_t wokhleas_raw_get_question(wokhleas_resolver *resolver, uint8_t *name, size_t room,
                                  wokhleas_question *question);
int32_t wokhleas_raw_stats(wokhleas_resolver *resolver, wokhleas_counts *counts);
int32_t wokhleas_raw_failover_event(wokhleas_failover *failover, bool failed);

#endif
