/* SPDX-License-Identifier: MIT OR Apache-2.0 */
/*
 * net.h - the network between nodes, with --link. Programs hand datagrams and connections to tkrun
 * (net/message.h), which lets them arrive when the common counter has reached their times. All of
 * it happens while all threads wait: so all that was sent before was sent at the present time.
 */
#ifndef TKRUN_NET_H
#define TKRUN_NET_H

#include "tkrun.h"
#include "net/message.h"

/* One direction of a link. */
struct link {
	struct link_options options;
	bool is_cut;
	uint64_t place;	  /* in the list of all */
	uint64_t draws;	  /* random numbers that it has drawn */
	uint64_t flights; /* that it has had */
	uint64_t busy;	  /* ns: its rate has let all bytes go then, and `rest` / rate ns later */
	uint64_t rest;
};

/* Makes the links, and gives each node the addresses of the others. */
void links_open(struct run *run);

/* Returns the link from one node to another, or NULL. */
struct link *link_between(size_t from, size_t to);

/* Returns the number of the node with an address, or 0. */
size_t node_at(struct address address);

/* Cuts both directions between two nodes, or heals them. */
void links_cut(size_t one, size_t other, bool is_cut);

/* Returns whether a link loses what is sent now, at random or since it is cut. */
bool link_loses(struct link *link);

/* Returns whether more bytes wait for the rate than the queue may have, and when it has room. */
bool link_is_full(const struct link *link, uint64_t now);
uint64_t link_room_at(const struct link *link);

/* Returns when some bytes arrive that are sent now. */
uint64_t link_arrival(struct link *link, uint64_t now, size_t bytes);

/* Something on its way. Those of one time arrive in the order of their links. */
struct flight {
	uint64_t arrival, place, number;
	void (*arrive)(struct flight *flight, uint64_t now); /* frees it */
};

/* Lets a flight begin. */
void flight_begin(struct flight *flight, struct link *link, uint64_t arrival);

/* Return the time of the first arrival, or NEVER, and how much is on its way. */
uint64_t flights_next(void);
size_t flights_count(void);

/* Lets the first flight arrive, if its time has come. Returns whether there was one. */
bool flights_arrive(uint64_t now);

/* Send a datagram, and connect a socket, at the wish of a program. They close the files. */
void take_datagram(const struct message *message, const char *bytes, size_t length, int file,
		   uint64_t now);
void take_connection(const struct message *message, int file, int answer, uint64_t now);

/* Looks who gets what a program has sent past the links, and warns if it is another node. Closes the
 * file. */
void take_stray(const struct message *message, int file);

/* The sockets of a port, in the network's order, with a bit for each state of TCP that they may be
 * in. Those of UDP have the same states. */
struct port {
	int protocol;
	uint32_t states;
	uint16_t port;
};

enum found { FOUND_NONE, FOUND_ONE, FOUND_UNKNOWN };

/* A socket in the kernel's list. */
struct listed {
	struct endpoint name;
	bool is_six_only; /* one of IPv6 that takes no IPv4 */
	uint32_t inode;
};

/* Looks at a socket by what is wanted. */
typedef bool socket_test(const struct listed *found, const void *wanted);

/* Looks at all sockets of a port, those of IPv4 first. Returns whether one of them is wanted, if the
 * kernel says which there are. */
enum found sockets_find(const struct port *port, socket_test *is_wanted, const void *wanted);

/* Makes a socket of a type by the family of an address. */
int net_make(struct address address, int type);

/* Return the name of a socket, and call bind or connect with a name. */
struct endpoint net_name(int file);
int net_call_with(int (*call)(int, const struct sockaddr *, socklen_t), int file,
		  const struct endpoint *name);

/* Returns the address of a node of the family of another address, or none. */
struct address net_own_address(size_t node, struct address other);

/* Notes the server of a connection by IPv6: its node and port, by tkrun's port at ::1. */
void net_note_relay(const struct link_options *link, uint16_t relay_port, int client,
		    uint16_t port);

/* Returns whether a socket gets what is sent to a name. One of IPv6 may get what IPv4 sends. */
bool net_gets(const struct listed *found, const struct endpoint *name);

/* Returns whether an address is one of this machine. */
bool net_is_local(struct address address);

/* Ends tkrun if this machine doesn't have the addresses of IPv6 of all nodes with links. */
void net_check_addresses(const struct run *run);

/* A connection to a server that is to be made. */
struct opening;

/* Returns whether a program listens at a name. */
bool opening_is_heard(const struct endpoint *server);

/* Makes an opening, whose server will see the client's name. */
struct opening *opening_begin(const struct endpoint *client, const struct endpoint *server);

/* Stores the file of the connection, or -1. Returns an errno. With EINPROGRESS the server has no
 * room for a connection, and it is to be tried again when programs have run. */
int opening_try(struct opening *opening, int *file);
void opening_end(struct opening *opening);

/* Makes a socket of TCP for tkrun's end of a connection by the family of an address. It may share
 * its address. */
int net_make_socket(struct address address);

/* Returns the error of a socket that is connecting, EINPROGRESS if it still is, or 0. */
int net_state_of(int file, int millis);

/* Joins two connections, the server's when the client's last packet has arrived: what tkrun reads
 * from one of them is sent to the other one. `client` is tkrun's end of the client's connection,
 * which is on node `from`. Closes the file, and ends the opening. */
void stream_open(int client, struct opening *opening, size_t from, size_t to, uint64_t now);

/* Reads what programs have written to all streams. Returns whether there was something. */
bool streams_read(uint64_t now);

/* Returns when a stream can be read again whose link is full now, or NEVER. */
uint64_t streams_next(void);

/* Opens the socket, if there are links, and removes its name. */
void net_open(struct run *run);
void net_remove(const char *folder);

/* Takes what programs have sent, or lets what has arrived go on. Returns whether there was
 * something: then threads may run. */
bool net_serve(uint64_t now);

/* Returns the next time at which there is something to do, or NEVER. */
uint64_t net_next(void);

/* Allocates memory that is 0, or ends tkrun. */
void *net_allocate(size_t size);

#endif
