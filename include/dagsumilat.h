/*
 * Dagsumilat: MRT dumps (RFC 6396) of route collectors, checked, counted, gone through record by record, and cut to a time window
 * without the peers on a list; single records read and written. Proved in Rattle; docs/PROMISES.md leads to what is proved.
 *
 * Link with libdagsumilat.a (`host/archive` writes it to lib/, for the machine at hand).
 *
 * For every call:
 * - Any octets may be handed over. No call fails in any way but by the number in answer[0], allocates, keeps a pointer, or writes
 *   anywhere but to `answer` and, if it is not refused, to `report` or to the octets of `out` that it reports.
 * - An array must have the stated number of elements. A pointer whose length is 0 is not followed, but must not be NULL.
 * - `out`, `report` and `answer` must not overlap with each other or with what is read.
 * - Offsets count from the dump's first octet, or the record's where a call takes one record. Times are in microseconds since 1970,
 *   UTC; a Timestamp is in seconds.
 *
 * A fault's place is the first octet of the field that failed. By number:
 *    1, 2   the record
 *    3      its Type
 *    4, 12  its Subtype
 *    5      the field that is incomplete, also where none of it is there: then the place is where the record ends
 *    6      the first octet left over
 *    7      that address family or SAFI
 *    8      the prefix length
 *    9      that state
 *    10     the BGP message's length
 *    11     the attributes that do not fill their octets: their first octet, not that of the bad one
 *    13     that peer index
 *    17     the view name: its first octet, not the first that is not text
 *    5, 6   where a BGP message's length is more or less than the record's octets from the marker on: that length
 * Each of a BGP message's marker, length and type is a field of its own, and 10 is asked once all three are there.
 * 14, 15 and 16 have the place 0.
 */
#ifndef DAGSUMILAT_H
#define DAGSUMILAT_H

#include <stddef.h>
#include <stdint.h>

#ifdef __cplusplus
extern "C" {
#endif

/* What answer[0] says. */
enum dagsumilat_fault {
    DAGSUMILAT_OK = 0,
    DAGSUMILAT_HEADER_INCOMPLETE = 1,  /* 1 to 11 octets remain where a header must start */
    DAGSUMILAT_LENGTH_PAST_END = 2,    /* Length is more than the octets behind the header */
    DAGSUMILAT_TYPE = 3,               /* a Type that is not read */
    DAGSUMILAT_SUBTYPE = 4,            /* a Subtype that is not read */
    DAGSUMILAT_FIELD_INCOMPLETE = 5,   /* the message ends inside a field */
    DAGSUMILAT_OCTETS_LEFT = 6,        /* octets behind the last field */
    DAGSUMILAT_FAMILY = 7,             /* an address family or SAFI other than 1 and 2 */
    DAGSUMILAT_PREFIX_LENGTH = 8,      /* above 32 (IPv4) or 128 (IPv6) */
    DAGSUMILAT_STATE = 9,              /* an FSM state other than 1 to 6 */
    DAGSUMILAT_BGP_LENGTH = 10,        /* a BGP message's length below 19 or above 4,096 */
    DAGSUMILAT_ATTRIBUTES = 11,        /* path attributes that do not fill their octets */
    DAGSUMILAT_NO_TABLE = 12,          /* a RIB record before any peer table */
    DAGSUMILAT_PEER_INDEX = 13,        /* an entry that names no peer of the table in force */
    DAGSUMILAT_WINDOW = 14,            /* a window whose start is after its end */
    DAGSUMILAT_ROOM = 15,              /* what is to be written is longer than `out` */
    DAGSUMILAT_REPORT = 16,            /* a number of the report passes 64 bits */
    DAGSUMILAT_VIEW_NAME = 17          /* a peer table's view name that is not UTF-8 text (RFC 3629) */
};

/* No table in force; no peer AS. */
#define DAGSUMILAT_NONE UINT64_MAX

/*
 * Checks a whole dump.
 *
 * answer[0]  0, or the first faulty record's number, 1 to 13 or 17
 * answer[1]  the dump's length, or the fault's place
 * answer[2]  how many good records stand before
 */
void dagsumilat_check(const uint8_t *dump, size_t dump_len, uint64_t answer[3]);

/*
 * Checks a whole dump, and says where the faulty record starts. So a caller of dagsumilat_check, dagsumilat_cut or dagsumilat_report
 * who has got a number from 1 to 13 or 17 finds the record that has the fault: by this call, with the same dump. Number and place are
 * the same.
 *
 * answer[0]  0, or the first faulty record's number, 1 to 13 or 17
 * answer[1]  the dump's length, or the fault's place
 * answer[2]  how many good records stand before
 * answer[3]  the dump's length, or where the faulty record starts
 *
 * The dump's first answer[3] octets are always a good dump, of answer[2] records.
 */
void dagsumilat_first_fault(const uint8_t *dump, size_t dump_len, uint64_t answer[4]);

/*
 * Counts a dump by itself and adds what it counted to `report`. For a report over many dumps begin with 39 zeros and hand over one dump
 * after another; their order means nothing, and a refused one adds nothing.
 *
 * report[0]  records
 * report[1]  state changes: types 16 and 17, subtypes 0 and 5
 * report[2]  breaks: type 12 records whose sequence is not that of the type 12 record before plus one, with 0 after 65,535. Records of
 *            other types may stand between. The first in a dump has none before it and is no break.
 * report[3 + 6 * (old - 1) + new - 1]  state changes from state `old` to state `new`, each 1 to 6
 *
 * answer[0]  0, or the dump's number, or 16 where any of the 39 sums passes 64 bits; `report` as it was on a refusal
 * answer[1]  the dump's length, or the place of the dump's fault; 0 with 16
 */
void dagsumilat_report(const uint8_t *dump, size_t dump_len, uint64_t report[39], uint64_t answer[2]);

/*
 * Cuts a dump: records from `from` up to but not including `to`, without the peers whose AS is among `mutes` (any order, repeats
 * allowed). Peer tables are kept at any time. Whatever the dump, out_len = dump_len is enough. Needs some 530 KB of stack,
 * however long dump and list are.
 *
 * answer[0]  0, or 14, the dump's number or 15, asked in this order
 * answer[1]  0, or the place of the dump's fault
 * answer[2]  how many octets were written, from out[0] on; 0 and `out` as it was on a refusal
 */
void dagsumilat_cut(const uint8_t *dump, size_t dump_len, uint64_t from, uint64_t to, const uint32_t *mutes, size_t mutes_len,
                    uint8_t *out, size_t out_len, uint64_t answer[3]);

/*
 * The record that starts at `at`. To go through a dump, begin with at = 0 and table = DAGSUMILAT_NONE, and hand over answer[1] and
 * answer[2] in the next call, while at < dump_len and answer[0] is 0.
 *
 * answer[0]  0, or the record's fault, 1 to 13 or 17
 * answer[1]  where the next record starts, or the fault's place, counted from the dump's first octet: the faulty record starts at the
 *            `at` that was handed over; `at` where at >= dump_len
 * answer[2]  the table in force behind the record: its number of peers, or DAGSUMILAT_NONE
 * answer[3]  time
 * answer[4]  Type; 0 where there is no good record, as in [3], [5], [6], [8] and [9]
 * answer[5]  Subtype
 * answer[6]  Length
 * answer[7]  the peer AS of a record of type 12, 16 or 17; else DAGSUMILAT_NONE
 * answer[8]  where the peers of a table or the entries of a RIB record start, counted from `at`; else 0
 * answer[9]  how many peers or entries it has; else 0
 */
void dagsumilat_record(const uint8_t *dump, size_t dump_len, size_t at, uint64_t table, uint64_t answer[10]);

/*
 * The peer of a peer table that starts at `at`. To go through the peers of a table that dagsumilat_record has found good, begin where
 * its answer[8] says and go on to answer[1], as often as its answer[9] says: these are its peers, none has a fault, and the last ends
 * where the record does.
 *
 * answer[0]  0 or 5
 * answer[1]  where the next peer starts, or the field that is not complete
 * answer[2]  AS
 * answer[3]  type octet
 * answer[4]  BGP ID
 * answer[5]  where the address lies
 * answer[6]  its size, 4 or 16
 * On a fault [2] to [6] are 0.
 */
void dagsumilat_peer(const uint8_t *dump, size_t dump_len, size_t at, uint64_t answer[7]);

/*
 * The entry of a RIB record that starts at `at`; gone through as the peers of a table. Its index and attributes are not judged: in a
 * record that dagsumilat_record has found good they are good.
 *
 * answer[0]  0 or 5
 * answer[1]  where the next entry starts, or the field that is not complete
 * answer[2]  peer index
 * answer[3]  originated time, in seconds
 * answer[4]  where the attributes lie
 * answer[5]  their size
 * On a fault [2] to [5] are 0.
 */
void dagsumilat_entry(const uint8_t *dump, size_t dump_len, size_t at, uint64_t answer[6]);

/* What answer[2] of dagsumilat_read says. */
enum dagsumilat_kind {
    DAGSUMILAT_NO_RECORD = 0,    /* no octets, or a fault */
    DAGSUMILAT_UNREAD = 1,       /* types 11, 32, 33, 48 and 49: carried, not read */
    DAGSUMILAT_TABLE_DUMP = 2,   /* type 12 */
    DAGSUMILAT_PEER_TABLE = 3,   /* type 13, subtype 1 */
    DAGSUMILAT_RIB = 4,          /* type 13, subtypes 2 to 5 */
    DAGSUMILAT_RIB_GENERIC = 5,  /* type 13, subtype 6 */
    DAGSUMILAT_CHANGE = 6,       /* types 16 and 17, subtypes 0 and 5 */
    DAGSUMILAT_MESSAGE = 7       /* types 16 and 17, subtypes 1, 4, 6 and 7 */
};

/*
 * Reads the record that `record` starts with: all its fields. Octets behind it are not looked at. `table` is the table in force before
 * it: its number of peers, or DAGSUMILAT_NONE; it matters for RIB records only.
 *
 * A part is two words: where it lies, counted from the record's header, and its size. An empty part has the offset where it would lie.
 * All words that a kind does not have are 0; where there are no octets, all are, and on a fault all but answer[0] and answer[1].
 *
 * answer[0]   0, or the record's fault, 1 to 13 or 17
 * answer[1]   where the record ends, 12 more than Length; or the fault's place, counted from the record's header
 * answer[2]   kind
 * answer[3]   Timestamp
 * answer[4]   Type
 * answer[5]   Subtype
 * answer[6]   Length
 * answer[7]   microseconds; only types 17, 33 and 49 have them
 *
 *             UNREAD     TABLE_DUMP     PEER_TABLE    RIB             RIB_GENERIC     CHANGE         MESSAGE
 * answer[8]   contents   view           collector ID  sequence        sequence        peer AS        peer AS
 * answer[9]    .. size   sequence       view name     prefix length   prefix length   local AS       local AS
 * answer[10]             prefix          .. size      prefix          prefix          interface      interface
 * answer[11]              .. size       peer count     .. size         .. size        family         family
 * answer[12]             prefix length  peers         entry count     entry count     peer address   peer address
 * answer[13]             status          .. size      entries         entries          .. size        .. size
 * answer[14]             originated                    .. size         .. size        local address  local address
 * answer[15]             peer address                                 family           .. size        .. size
 * answer[16]              .. size                                     SAFI            old state      BGP message
 * answer[17]             peer AS                                                      new state       .. size
 * answer[18]             attributes                                                                  its type octet
 * answer[19]              .. size
 *
 * A prefix length is in bits. A view name is UTF-8 text (RFC 3629); it may be empty or hold zeros, and no zero ends it. Peers and
 * entries are gone through by dagsumilat_peer and dagsumilat_entry. A BGP message starts with its marker.
 */
void dagsumilat_read(const uint8_t *record, size_t record_len, uint64_t table, uint64_t answer[20]);

/*
 * Seven calls that write one record each, from the fields of its kind as dagsumilat_read gives them; Length, the view name's length and
 * type 12's attribute length are worked out. Any numbers and any octets may be handed over. What was read and is written again, with
 * microseconds where the Type is 17, 33 or 49, gives the octets that were read.
 *
 * Where a call takes a time, that is three numbers: the Timestamp; whether there are microseconds, 0 or any other number; and the
 * microseconds, not looked at where there are none. With microseconds a state change or message is of type 17, else 16.
 * Where it takes a table, that is the one in force before the record, as for dagsumilat_read.
 *
 * answer[0]  0, or the number that reading such a record would give: the first in the order of its fields. In a field's turn a part
 *            too short for it gives 5, a part too long or a number too large for it 6. A Subtype of another kind is 4, to
 *            dagsumilat_write_unread a Type of another kind 3. Last come 6 for a message past 32 bits of Length, and 15.
 * answer[1]  how many octets were written, from out[0] on; 0 and `out` as it was on a refusal
 */

/* Types 11, 32 and 48, and with microseconds 33 and 49. */
void dagsumilat_write_unread(uint64_t timestamp, uint64_t has_microseconds, uint64_t microseconds, uint64_t type, uint64_t subtype,
                             const uint8_t *contents, size_t contents_len, uint8_t *out, size_t out_len, uint64_t answer[2]);

/* Type 12. Prefix and address have 4 octets with subtype 1, 16 with subtype 2. */
void dagsumilat_write_table_dump(uint64_t timestamp, uint64_t subtype, uint64_t view, uint64_t sequence, const uint8_t *prefix,
                                 size_t prefix_len, uint64_t prefix_bits, uint64_t status, uint64_t originated,
                                 const uint8_t *peer_address, size_t peer_address_len, uint64_t peer_as, const uint8_t *attributes,
                                 size_t attributes_len, uint8_t *out, size_t out_len, uint64_t answer[2]);

/*
 * Type 13, subtype 1. A name of more than 65,535 octets gives 6, then one that is not UTF-8 text 17; no zero need end it. The peers are
 * handed over laid out, with their count.
 */
void dagsumilat_write_peer_table(uint64_t timestamp, uint64_t collector_id, const uint8_t *name, size_t name_len, uint64_t count,
                                 const uint8_t *peers, size_t peers_len, uint8_t *out, size_t out_len, uint64_t answer[2]);

/* Type 13, subtypes 2 to 5. The prefix has as many octets as its bits need; the entries are handed over laid out, with their count. */
void dagsumilat_write_rib(uint64_t timestamp, uint64_t subtype, uint64_t table, uint64_t sequence, uint64_t prefix_bits,
                          const uint8_t *prefix, size_t prefix_len, uint64_t count, const uint8_t *entries, size_t entries_len,
                          uint8_t *out, size_t out_len, uint64_t answer[2]);

/* Type 13, subtype 6. */
void dagsumilat_write_rib_generic(uint64_t timestamp, uint64_t table, uint64_t sequence, uint64_t family, uint64_t safi,
                                  uint64_t prefix_bits, const uint8_t *prefix, size_t prefix_len, uint64_t count,
                                  const uint8_t *entries, size_t entries_len, uint8_t *out, size_t out_len, uint64_t answer[2]);

/* Types 16 and 17, subtypes 0 and 5. Addresses have 4 octets with family 1, 16 with family 2. */
void dagsumilat_write_change(uint64_t timestamp, uint64_t has_microseconds, uint64_t microseconds, uint64_t subtype, uint64_t peer_as,
                             uint64_t local_as, uint64_t interface, uint64_t family, const uint8_t *peer_address,
                             size_t peer_address_len, const uint8_t *local_address, size_t local_address_len, uint64_t old_state,
                             uint64_t new_state, uint8_t *out, size_t out_len, uint64_t answer[2]);

/* Types 16 and 17, subtypes 1, 4, 6 and 7. The message is handed over whole, from its marker on. */
void dagsumilat_write_message(uint64_t timestamp, uint64_t has_microseconds, uint64_t microseconds, uint64_t subtype, uint64_t peer_as,
                              uint64_t local_as, uint64_t interface, uint64_t family, const uint8_t *peer_address,
                              size_t peer_address_len, const uint8_t *local_address, size_t local_address_len, const uint8_t *message,
                              size_t message_len, uint8_t *out, size_t out_len, uint64_t answer[2]);

#ifdef __cplusplus
}
#endif

#endif
