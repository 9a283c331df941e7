/* SPDX-License-Identifier: MIT OR Apache-2.0 */
/* address_options.c - parses the addresses of nodes. */
#define _GNU_SOURCE
#include "options.h"
#include "net/relays.h"

#include <string.h>

static struct address parse_four(const char *text)
{
	struct in_addr four;

	if (inet_pton(AF_INET, text, &four) != 1 || ntohl(four.s_addr) <= INADDR_LOOPBACK ||
	    ntohl(four.s_addr) >= RELAYS_FIRST)
		fail(STATUS_WRONG, "address '%s' isn't one from 127.0.0.2 to 127.63.255.255", text);
	return address_of_four(four.s_addr);
}

/* An address that is the machine's own, that needs the name of an interface, or that contains one
 * of IPv4, can't be that of a node. */
static struct address parse_six(const char *text)
{
	struct in6_addr six;
	struct address address;

	if (inet_pton(AF_INET6, text, &six) != 1 || IN6_IS_ADDR_UNSPECIFIED(&six) ||
	    IN6_IS_ADDR_LOOPBACK(&six) || IN6_IS_ADDR_MULTICAST(&six) ||
	    IN6_IS_ADDR_LINKLOCAL(&six) || IN6_IS_ADDR_V4MAPPED(&six) || IN6_IS_ADDR_V4COMPAT(&six))
		fail(STATUS_WRONG, "address '%s' isn't one of IPv6 for a node, such as fd00::3",
		     text);
	memcpy(&address, &six, sizeof(address));
	return address;
}

void parse_address(struct options *node, const char *text)
{
	struct address address = strchr(text, ':') ? parse_six(text) : parse_four(text);
	struct address *place = &node->addresses[address_family(address)];

	if (!address_is_none(*place))
		fail(STATUS_WRONG, "address '%s' is its second one of this family", text);
	*place = address;
}

bool has_address(const struct options *node)
{
	return !address_is_none(node->addresses[FAMILY_FOUR]) ||
	       !address_is_none(node->addresses[FAMILY_SIX]);
}
