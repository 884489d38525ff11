/* What both programs share: the words that they are given, the driver, and how a program ends. */
#pragma once
#include "deltat_udp.h"
#include <errno.h>
#include <stdio.h>
#include <stdlib.h>
#include <string.h>
#include <unistd.h>

/* What is known of the network. Equal for the server and all gateways. */
struct network { struct dt_params params; uint32_t charge; };
struct address { char *host, *port; };
#define NETWORK_USAGE "\nNETWORK: DELAY,ROUND-TRIP[,MTU], in ms as tools/params.py takes them; a rack is 2,0.3"

struct network network_of(const char *word);
struct address address_of(char *word); /* HOST:PORT; cuts the word */
int signals_fd(void);                  /* readable once SIGTERM or SIGINT came */
dt_udp *udp_open(const struct dt_udp_options *options, uint16_t first_port, uint16_t ports, uint8_t kind);
void udp_judge(const struct dt_udp_event *event); /* ends the program if the driver can't continue */
_Noreturn void die(const char *format, ...) __attribute__((format(printf, 1, 2)));
_Noreturn void die_of_errno(const char *what);
void *memory(void *got); /* ends the program if it is null */
