/*
 * powerlink_cn.h - a POWERLINK controlled node (EPSG DS 301), proved, as a C library.
 *
 * A head is one controlled node. Its owner lends its memory with each call: the head, the bytes of
 * its emergency queue and of its error history, and the run of watched nodes. A weigh head (struct
 * plcn_weigh) is a head with the recipe that it doses from, of which nobody else has the parts.
 *
 * Results
 *   Each function that answers uint32_t answers 0 (PLCN_OK) where the call was taken, or the number
 *   of a refusal (enum plcn_refusal). Of several refusals that apply, the first in the order of the
 *   function's comment is given. A refused call writes nothing: no field of the head, no byte of
 *   the memories, no field of the run, and nothing through the pointer of its answer. A function
 *   whose comment says "Refusals: none." always answers PLCN_OK. plcn_version answers a version.
 *
 * Units
 *   Times and timeouts are in microseconds from any origin, at most PLCN_LATEST_TIME (2^62 - 1).
 *   The tolerance is in nanoseconds, weights are in grams. Flags are 0 or 1 where they are
 *   answered; where they are given any number but 0 is 1.
 *
 * Ownership
 *   No pointer is kept behind a call. The library has no state, allocates nothing, and calls
 *   nothing but memcpy, memmove and memset.
 *
 * Threads
 *   Calls on different memory may run at the same time. Calls that are lent the same memory must
 *   not, unless each of them only reads it (a pointer to const).
 *
 * What the caller owes, and nothing proves
 *   - Each pointer is aligned for its type and points to a whole object of it, which the caller may
 *     read, and write where it is not to const. A pointer with a length points to that many bytes;
 *     with length 0 it may be null. No other pointer is null.
 *   - No two pointers of one call overlap, but where both are to const.
 *   - The memory of a head is changed by the functions of this header alone, from its start on. The
 *     fields may be read. A caller who writes them has a head for which the rules of a started head
 *     are not claimed; every call on it still answers or refuses, and does nothing undefined.
 *   - The archive is the one that was proved: plcn_version answers PLCN_VERSION.
 *   Any memory may be given to a start, also such as was never written.
 *
 * Texts
 *   A text is answered by value, as a struct plcn_text. In C99 it has to be kept in an object
 *   before it is read; from C11 on, and in C++, plcn_state_name(state).text may be read in the
 *   expression in which it stands.
 *
 * Rules and examples
 *   "Rules:" names where a function's rules come from: the standard's text, or our own. RULES is
 *   docs/RULES.md of the source. In the examples head and run, queue and history, weigh and memory
 *   are objects of their types, head and weigh are started; places are the 32 places of a run, of
 *   which number are watched; bytes are the length bytes of a frame; now is a time, in us.
 *
 * What stays the same
 *   Between two versions with the same PLCN_VERSION_MAJOR, from 1 on, a program that compiles and
 *   links goes on doing so, with the same numbers, sizes and offsets; functions, refusals and
 *   constants may be added. At major version 0 each PLCN_VERSION_MINOR may change them.
 */
#ifndef POWERLINK_CN_H
#define POWERLINK_CN_H

#include <stddef.h>
#include <stdint.h>

#ifdef __cplusplus
extern "C" {
#endif

/* ---- Version ---- */

#define PLCN_VERSION_MAJOR 0
#define PLCN_VERSION_MINOR 1
#define PLCN_VERSION_PATCH 0
/** The version as one number: 10000 * major + 100 * minor + patch. */
#define PLCN_VERSION (10000u * PLCN_VERSION_MAJOR + 100u * PLCN_VERSION_MINOR + PLCN_VERSION_PATCH)

/* ---- Sizes and limits ---- */

/** The latest time and the longest timeout, in us: 2^62 - 1. */
#define PLCN_LATEST_TIME UINT64_C(4611686018427387903)
/** The places of a run of watched nodes. */
#define PLCN_WATCHED_PLACES 32
/** The bytes of an entry. */
#define PLCN_ENTRY_BYTES 20
/** The entries that an emergency queue may hold at most. */
#define PLCN_QUEUE_PLACES 32
/** The entries that an error history holds. */
#define PLCN_HISTORY_PLACES 254
/** The highest threshold. */
#define PLCN_HIGHEST_THRESHOLD 1000000
/** The places of a weigh head, and the most components of a recipe. */
#define PLCN_RECIPE_PLACES 16
/** The bytes of a text, with the 0 behind it. */
#define PLCN_TEXT_BYTES 96

/* ---- Numbers ---- */

/** Why a call is refused. */
enum plcn_refusal {
    PLCN_OK = 0,                        /**< the call was taken */
    PLCN_REFUSED_NODE_NUMBER = 1,       /**< a node's number is not 1 to 240, 253, 254 or 255 */
    PLCN_REFUSED_QUEUE_CAPACITY = 2,    /**< the queue is to hold more than 32 entries */
    PLCN_REFUSED_WATCHED_NODES = 3,     /**< the run of watched nodes is not well formed */
    PLCN_REFUSED_UNKNOWN_NUMBER = 4,    /**< a number names no state, event, command or kind */
    PLCN_REFUSED_TIME_LIMIT = 5,        /**< a time is above PLCN_LATEST_TIME */
    PLCN_REFUSED_BEFORE_HEARD = 6,      /**< the time is before a watched node was last heard */
    PLCN_REFUSED_NOT_WATCHED = 7,       /**< the node is not watched */
    PLCN_REFUSED_READY_TO_OPERATE = 8,  /**< the ready word can't be withdrawn at ReadyToOperate */
    PLCN_REFUSED_ALL_WATCHED = 9,       /**< 32 nodes are watched already */
    PLCN_REFUSED_ALREADY_WATCHED = 10,  /**< the node is watched already */
    PLCN_REFUSED_BUFFER_TOO_SHORT = 11, /**< fewer than 20 bytes are left from the place on */
    PLCN_REFUSED_PROFILE_LIMIT = 12,    /**< the profile of an entry is above 4095 */
    PLCN_REFUSED_NO_SINGLE_KIND = 13,   /**< an error code names no single kind */
    PLCN_REFUSED_THRESHOLD_LIMIT = 14,  /**< a threshold is above PLCN_HIGHEST_THRESHOLD */
    PLCN_REFUSED_RECIPE_LIMITS = 15,    /**< a recipe is outside its limits */
    PLCN_REFUSED_NOT_PREOPERATIONAL2 = 16,  /**< a recipe is loaded in PreOperational2 alone */
    PLCN_REFUSED_NO_WEIGHT = 17,            /**< no weight is told for the place now */
    PLCN_REFUSED_FRAME_TOO_SHORT = 18,      /**< a frame has fewer bytes than its kind needs */
    PLCN_REFUSED_OTHER_ETHERTYPE = 19,      /**< a frame's EtherType is not 0x88AB */
    PLCN_REFUSED_OTHER_MESSAGE_TYPE = 20,   /**< a frame's message type is none that is read */
    PLCN_REFUSED_EARLIEST_AFTER_LATEST = 21 /**< the earliest reading is after the latest */
};

/** An NMT state (DS 301, Section 7.1 and Appendix 3.6), by the standard's number. */
enum plcn_state {
    PLCN_STATE_GS_OFF = 0x00,
    PLCN_STATE_GS_INITIALISING = 0x19,
    PLCN_STATE_GS_RESET_APPLICATION = 0x29,
    PLCN_STATE_GS_RESET_COMMUNICATION = 0x39,
    PLCN_STATE_GS_RESET_CONFIGURATION = 0x79,
    PLCN_STATE_NOT_ACTIVE = 0x1C,
    PLCN_STATE_PRE_OPERATIONAL_1 = 0x1D,
    PLCN_STATE_BASIC_ETHERNET = 0x1E,
    PLCN_STATE_CS_STOPPED = 0x4D,
    PLCN_STATE_PRE_OPERATIONAL_2 = 0x5D,
    PLCN_STATE_READY_TO_OPERATE = 0x6D,
    PLCN_STATE_OPERATIONAL = 0xFD
};

/** An NMT event, by its number here. */
enum plcn_event {
    PLCN_EVENT_START_NODE = 0,
    PLCN_EVENT_STOP_NODE = 1,
    PLCN_EVENT_ENTER_PRE_OPERATIONAL_2 = 2,
    PLCN_EVENT_ENABLE_READY_TO_OPERATE = 3,
    PLCN_EVENT_RESET = 4,
    PLCN_EVENT_SW_RESET = 5,
    PLCN_EVENT_RESET_NODE = 6,
    PLCN_EVENT_RESET_COMMUNICATION = 7,
    PLCN_EVENT_RESET_CONFIGURATION = 8,
    PLCN_EVENT_ENTER_EPL_MODE = 9,
    PLCN_EVENT_TIMEOUT = 10,
    PLCN_EVENT_ERROR = 11,
    PLCN_EVENT_SOA_RECEIVED = 12,
    PLCN_EVENT_SOC_RECEIVED = 13,
    PLCN_EVENT_POWERLINK_FRAME_RECEIVED = 14,
    PLCN_EVENT_CN_CONFIGURATION_COMPLETE = 15, /**< the application's ready word */
    PLCN_EVENT_ALL_CNS_IDENTIFIED = 16,
    PLCN_EVENT_CONFIGURATION_COMPLETE_CNS_READY = 17,
    PLCN_EVENT_ALL_MANDATORY_CNS_OPERATIONAL = 18
};

/** A state command of the managing node, by the standard's number. */
enum plcn_command {
    PLCN_COMMAND_START_NODE = 0x21,
    PLCN_COMMAND_STOP_NODE = 0x22,
    PLCN_COMMAND_ENTER_PRE_OPERATIONAL_2 = 0x23,
    PLCN_COMMAND_ENABLE_READY_TO_OPERATE = 0x24,
    PLCN_COMMAND_RESET_NODE = 0x28,
    PLCN_COMMAND_RESET_COMMUNICATION = 0x29,
    PLCN_COMMAND_RESET_CONFIGURATION = 0x2A,
    PLCN_COMMAND_SW_RESET = 0x2B
};

/** A DLL event, by its number here. */
enum plcn_dll_event {
    PLCN_DLL_EVENT_SOC = 0,
    PLCN_DLL_EVENT_PREQ = 1,
    PLCN_DLL_EVENT_PRES = 2,
    PLCN_DLL_EVENT_SOA = 3,
    PLCN_DLL_EVENT_ASND = 4,
    PLCN_DLL_EVENT_SOC_TIMEOUT = 5
};

/** A state of the DLL machine, by its number here. */
enum plcn_dll_state {
    PLCN_DLL_STATE_NON_CYCLIC = 0,
    PLCN_DLL_STATE_WAIT_SOC = 1,
    PLCN_DLL_STATE_WAIT_PREQ = 2,
    PLCN_DLL_STATE_WAIT_SOA = 3
};

/** A kind of error, by its number here. */
enum plcn_error_kind {
    PLCN_KIND_LOSS_OF_LINK = 0,
    PLCN_KIND_BAD_PHYSICAL_MODE = 1,
    PLCN_KIND_MAC_BUFFER = 2,
    PLCN_KIND_CRC = 3,
    PLCN_KIND_COLLISION = 4,
    PLCN_KIND_INVALID_FORMAT = 5,
    PLCN_KIND_LOSS_OF_SOC = 6,
    PLCN_KIND_LOSS_OF_SOA = 7,
    PLCN_KIND_LOSS_OF_PREQ = 8,
    PLCN_KIND_LOSS_OF_PRES = 9,        /**< carries a node */
    PLCN_KIND_LOSS_OF_STATUS_RES = 10, /**< carries a node */
    PLCN_KIND_CYCLE_TIME_EXCEEDED = 11,
    PLCN_KIND_LATE_PRES = 12, /**< carries a node */
    PLCN_KIND_SOC_JITTER = 13,
    PLCN_KIND_MS_WAIT_SOC = 14,
    PLCN_KIND_MULTIPLE_MN = 15,
    PLCN_KIND_ADDRESS_CONFLICT = 16,
    PLCN_KIND_MEV_ASND_TIMEOUT = 17,
    PLCN_KIND_UNEXPECTED_EVENT_IN_STATE = 18, /**< carries a state and an event */
    PLCN_KIND_PDO_MAP_VERSION = 19,           /**< carries a node */
    PLCN_KIND_PDO_PAYLOAD_SHORT = 20,         /**< carries a node */
    PLCN_KIND_HEARTBEAT_TIMEOUT = 21          /**< carries a node */
};

/** Which reset an NMT event passed, by the state in which it begins. */
enum plcn_reset {
    PLCN_RESET_NONE = 0,
    PLCN_RESET_WHOLE = 1,         /**< Reset and SwReset: from GsInitialising on */
    PLCN_RESET_NODE = 2,          /**< ResetNode: from GsResetApplication on */
    PLCN_RESET_COMMUNICATION = 3, /**< ResetCommunication: from GsResetCommunication on */
    PLCN_RESET_CONFIGURATION = 4  /**< ResetConfiguration: GsResetConfiguration */
};

/** What the NMT machine is asked to do for an error. */
enum plcn_action {
    PLCN_ACTION_NONE = 0,
    PLCN_ACTION_RESET_COMMUNICATION = 1,
    PLCN_ACTION_RESET_NODE = 2
};

/** What readings of a clock say of the SoC. */
enum plcn_verdict {
    PLCN_SOC_LOST = 0, /**< at each of them it is lost */
    PLCN_SOC_KEPT = 1, /**< at none of them */
    PLCN_SOC_OPEN = 2  /**< at some of them */
};

/** The mode of an entry (DS 301, Table 96). */
enum plcn_entry_mode {
    PLCN_MODE_TERMINATOR = 0,
    PLCN_MODE_ERROR_ACTIVE = 1,
    PLCN_MODE_ERROR_CLEARED = 2,
    PLCN_MODE_EVENT_OCCURRED = 3
};

/** The message type of a frame, by the standard's number. */
enum plcn_message {
    PLCN_MESSAGE_SOC = 1,
    PLCN_MESSAGE_PREQ = 3,
    PLCN_MESSAGE_PRES = 4,
    PLCN_MESSAGE_SOA = 5,
    PLCN_MESSAGE_ASND = 6
};

/* ---- What is lent ---- */

/** The counter of one kind of error. */
struct plcn_counter {
    uint32_t cumulative; /**< the errors that it got, up to 2^32 - 1 */
    uint32_t level;      /**< an error raises it by 8, a complete cycle lowers it by 1 */
    uint32_t threshold;  /**< the level at which it crosses; 0: never */
    uint32_t crossings;  /**< how often it crossed, up to 2^32 - 1 */
};

/** A time of a head, in two words: plcn_time joins them. */
struct plcn_split_time {
    uint32_t low;
    uint32_t high;
};

/** A head: one controlled node. Its fields may be read; the calls alone write them. */
struct plcn_head {
    uint32_t state;            /**< the NMT state, enum plcn_state */
    uint32_t node;             /**< the node's number */
    uint32_t feature_flags;    /**< kept, never read */
    uint32_t basic_timeout_us; /**< until the fall to BasicEthernet; 0: never */
    uint32_t enabled;          /**< whether EnableReadyToOperate came in this visit */
    uint32_t ready;            /**< whether the application's ready word stands */
    uint32_t dll_state;        /**< enum plcn_dll_state */
    struct plcn_counter collision;
    struct plcn_counter loss_of_soc;
    struct plcn_counter loss_of_soa;
    struct plcn_counter loss_of_preq;
    struct plcn_counter soc_jitter;
    struct plcn_counter crc_errors;
    struct plcn_counter heartbeat_timeout;
    uint32_t lost_links;             /**< the count of lost links */
    struct plcn_split_time last_soc; /**< when the last SoC came, in us */
    struct plcn_split_time deadline; /**< of the SoC check or the basic timeout, in us */
    uint32_t check_on;               /**< whether a lost SoC is looked for */
    uint32_t has_deadline;           /**< whether deadline stands */
    uint32_t error_status_changed;   /**< whether a signal in a tick set it */
    uint32_t error_register;         /**< object 0x1001 */
    uint32_t has_cycle;              /**< whether object 0x1006 is there; missing counts as 0 */
    uint32_t cycle_us;               /**< object 0x1006 */
    uint32_t has_tolerance;          /**< whether 0x1C14 is there; missing counts as 100,000 */
    uint32_t tolerance_ns;           /**< object 0x1C14 */
    uint32_t counter_1;              /**< of object 0x1102: errors at the SoC check */
    uint32_t counter_2;              /**< entries that joined queue and history */
    uint32_t counter_3;              /**< entries that were dropped, as the queue was full */
    uint32_t counter_5;              /**< signals that changed the error register */
    uint32_t queue_oldest;           /**< the place of the oldest entry in the queue */
    uint32_t queue_length;           /**< how many entries wait */
    uint32_t queue_capacity;         /**< how many may wait */
    uint32_t history_newest;         /**< the place of the newest entry in the history */
    uint32_t history_count;          /**< how many entries the history has */
    uint32_t has_earliest;           /**< whether earliest stands */
    struct plcn_split_time earliest; /**< when a watched node would be late, in us */
};

/** The bytes of an emergency queue. plcn_queue_entry reads them. */
struct plcn_queue {
    uint8_t entry[PLCN_QUEUE_PLACES][PLCN_ENTRY_BYTES];
};

/** The bytes of an error history. plcn_history_entry reads them. */
struct plcn_history {
    uint8_t entry[PLCN_HISTORY_PLACES][PLCN_ENTRY_BYTES];
};

/** A watched node, a partner whose heartbeat is checked. */
struct plcn_watched {
    uint64_t node;          /**< its number */
    uint64_t timeout_us;    /**< it is late once it was not heard for longer; 0: never late */
    uint64_t last_heard_us; /**< 0: never heard */
};

/**
 * The run of watched nodes: the first number places. It is well formed where number is at most 32
 * and those places have ascending node numbers, each 1 to 240, 253, 254 or 255, and times of at
 * most PLCN_LATEST_TIME. The caller may write it between calls.
 */
struct plcn_run {
    struct plcn_watched place[PLCN_WATCHED_PLACES];
    uint64_t number;
};

/**
 * A weigh head. Nobody but the functions plcn_weigh_.. reads or writes it. Two are not compared by
 * their bytes, since some of those stand for nothing.
 */
struct plcn_weigh {
    uint32_t opaque[76];
};

/** What is lent to a weigh head with each call. */
struct plcn_memory {
    struct plcn_run run;
    struct plcn_queue queue;
    struct plcn_history history;
};

/* ---- What is given ---- */

/** A value of the dictionary that may be missing. */
struct plcn_value {
    uint32_t there; /**< 0: missing */
    uint32_t value; /**< not looked at where it is missing */
};

/** A threshold for each kind of error that is counted, 0 to 1,000,000; 0 never crosses. */
struct plcn_thresholds {
    uint32_t collision;
    uint32_t loss_of_soc;
    uint32_t loss_of_soa;
    uint32_t loss_of_preq;
    uint32_t soc_jitter;
    uint32_t crc_errors;
    uint32_t heartbeat_timeout;
};

/** What a head is started with. */
struct plcn_setup {
    uint8_t node;                   /**< 1 to 240, 253, 254 or 255 */
    uint8_t error_register;         /**< object 0x1001 */
    uint32_t feature_flags;         /**< kept, never read */
    uint32_t basic_timeout_us;      /**< 0: the node never falls to BasicEthernet */
    struct plcn_value cycle_us;     /**< object 0x1006; missing counts as 0: no SoC check */
    struct plcn_value tolerance_ns; /**< object 0x1C14; missing counts as 100,000 */
    uint32_t counter_1;             /**< of object 0x1102 */
    uint32_t counter_2;
    uint32_t counter_3;
    uint32_t counter_5;
    struct plcn_thresholds thresholds;
    uint64_t queue_capacity; /**< 0 to 32 */
};

/** Which values of the dictionary are loaded, and with what. */
struct plcn_update {
    uint8_t set_error_register; /**< 0: the value stays as it is; so for each of these */
    uint8_t set_cycle;
    uint8_t set_tolerance;
    uint8_t set_counter_1;
    uint8_t set_counter_2;
    uint8_t set_counter_3;
    uint8_t set_counter_5;
    uint8_t set_history; /**< whether the entries that are given become the history */
    uint8_t error_register;
    struct plcn_value cycle_us;     /**< may be set to missing */
    struct plcn_value tolerance_ns; /**< may be set to missing */
    uint32_t counter_1;
    uint32_t counter_2;
    uint32_t counter_3;
    uint32_t counter_5;
};

/** A component of a recipe; of a place without one, 0 and 0. */
struct plcn_component {
    uint8_t bin;    /**< 1 to 64 */
    uint16_t grams; /**< 1 to 30,000 */
};

/* ---- What is answered ---- */

/** An error. */
struct plcn_error {
    uint8_t kind; /**< enum plcn_error_kind */
    uint8_t a;    /**< the node of a kind that carries one, or the state of kind 18; else 0 */
    uint8_t b;    /**< the event of kind 18; else 0 */
};

/** The errors that one call reports, in order. */
struct plcn_errors {
    uint8_t count;              /**< 0, 1 or 2 */
    struct plcn_error error[2]; /**< zeros behind count */
};

/** What an NMT event answers. */
struct plcn_nmt_answer {
    struct plcn_errors errors; /**< the errors that it reports */
    uint8_t reset;             /**< enum plcn_reset; plcn_reset_steps tells its states */
};

/** What an error answers. */
struct plcn_error_answer {
    uint8_t action;            /**< enum plcn_action */
    uint8_t action_node;       /**< the node of PLCN_ACTION_RESET_NODE; else 0 */
    uint8_t signal;            /**< whether the error is signalled */
    struct plcn_errors logged; /**< what is logged */
};

/** What a complete cycle answers. */
struct plcn_cycle_answer {
    uint8_t cleared; /**< whether the last level above 0 reached 0 */
};

/** An entry of a queue or a history (DS 301, Tables 94 and 96). */
struct plcn_entry {
    uint8_t is_status;     /**< the status mark, bit 15 of the type */
    uint8_t send_to_queue; /**< the queue mark, bit 14 */
    uint8_t mode;          /**< enum plcn_entry_mode */
    uint16_t profile;      /**< 0 to 4095; 2 is POWERLINK */
    uint16_t code;         /**< the error code */
    uint32_t seconds;      /**< of its time */
    uint32_t nanoseconds;
    uint64_t additional; /**< additional information */
};

/** The entry that was handed out, if any. */
struct plcn_handed_out {
    struct plcn_entry entry; /**< zeros where none waits */
    uint8_t there;           /**< 0: the queue is empty */
};

/** What a range of readings answers. */
struct plcn_range_answer {
    uint8_t verdict; /**< enum plcn_verdict */
};

/** What a margin answers. */
struct plcn_margin_answer {
    int64_t margin_us; /**< what is left of the limit; below 0 the SoC is lost */
};

/** When the next tick is due. */
struct plcn_due_answer {
    uint64_t time_us; /**< the moment; 0: at once, or none where there is 0 */
    uint8_t there;    /**< 0: no tick finds anything to do */
};

/** What a frame answers. */
struct plcn_frame_answer {
    uint8_t ours;               /**< 0: it is for another node, nothing changed, all else is 0 */
    struct plcn_errors logged;  /**< what is logged */
    uint8_t has_nmt;            /**< whether an NMT event came of it */
    struct plcn_nmt_answer nmt; /**< what that answers; zeros where none came */
};

/** What is read of a frame. */
struct plcn_frame {
    uint8_t message;     /**< enum plcn_message */
    uint8_t destination; /**< the number of the node that it is for; 255: every node */
    uint8_t source;      /**< the number of the node that sent it */
    uint8_t service;     /**< of an ASnd its service; else 0 */
    uint8_t command;     /**< of service 4 the state command, enum plcn_command; else 0 */
};

/** The watched nodes as bits: node n is bit n % 8 of byte n / 8, lowest bit first. */
struct plcn_bitmap {
    uint8_t byte[32];
    uint32_t nodes; /**< how many bits are set */
};

/** A range of indexes of the object dictionary, both included. */
struct plcn_index_range {
    uint16_t first;
    uint16_t last;
};

/** What a reset passes. */
struct plcn_reset_steps {
    uint8_t states;                   /**< how many states it enters, 0 to 5 */
    uint8_t state[5];                 /**< them, in order; zeros behind */
    uint8_t ranges;                   /**< how many ranges are to be restored, 0 to 3 */
    struct plcn_index_range range[3]; /**< them, in order; zeros behind */
};

/** A text, with a 0 behind it; empty where there is none. */
struct plcn_text {
    char text[PLCN_TEXT_BYTES];
};

/* ---- Sizes and offsets ---- */

/* The archive lays these structs out so. Another ABI, as one that aligns uint64_t to 4, is refused
   here and not served wrong. */
#if defined(__cplusplus)
#define PLCN_ASSERT(name, condition) static_assert(condition, #name)
#elif defined(__STDC_VERSION__) && __STDC_VERSION__ >= 201112L
#define PLCN_ASSERT(name, condition) _Static_assert(condition, #name)
#else
#define PLCN_ASSERT(name, condition) typedef char plcn_assert_##name[(condition) ? 1 : -1]
#endif
#define PLCN_SIZE(type, bytes) PLCN_ASSERT(size_of_##type, sizeof(struct type) == (bytes))
#define PLCN_OFFSET(type, field, bytes)                                                            \
    PLCN_ASSERT(offset_of_##field##_in_##type, offsetof(struct type, field) == (bytes))

PLCN_SIZE(plcn_counter, 16);
PLCN_SIZE(plcn_split_time, 8);
PLCN_SIZE(plcn_head, 240);
PLCN_SIZE(plcn_queue, 640);
PLCN_SIZE(plcn_history, 5080);
PLCN_SIZE(plcn_watched, 24);
PLCN_SIZE(plcn_run, 776);
PLCN_SIZE(plcn_weigh, 304);
PLCN_SIZE(plcn_memory, 6496);
PLCN_SIZE(plcn_value, 8);
PLCN_SIZE(plcn_thresholds, 28);
PLCN_SIZE(plcn_setup, 80);
PLCN_SIZE(plcn_update, 44);
PLCN_SIZE(plcn_component, 4);
PLCN_SIZE(plcn_error, 3);
PLCN_SIZE(plcn_errors, 7);
PLCN_SIZE(plcn_nmt_answer, 8);
PLCN_SIZE(plcn_error_answer, 10);
PLCN_SIZE(plcn_cycle_answer, 1);
PLCN_SIZE(plcn_entry, 24);
PLCN_SIZE(plcn_handed_out, 32);
PLCN_SIZE(plcn_range_answer, 1);
PLCN_SIZE(plcn_margin_answer, 8);
PLCN_SIZE(plcn_due_answer, 16);
PLCN_SIZE(plcn_frame_answer, 17);
PLCN_SIZE(plcn_frame, 5);
PLCN_SIZE(plcn_bitmap, 36);
PLCN_SIZE(plcn_index_range, 4);
PLCN_SIZE(plcn_reset_steps, 20);
PLCN_SIZE(plcn_text, 96);

PLCN_OFFSET(plcn_head, collision, 28);
PLCN_OFFSET(plcn_head, lost_links, 140);
PLCN_OFFSET(plcn_head, last_soc, 144);
PLCN_OFFSET(plcn_head, error_register, 172);
PLCN_OFFSET(plcn_head, queue_oldest, 208);
PLCN_OFFSET(plcn_head, earliest, 232);
PLCN_OFFSET(plcn_setup, feature_flags, 4);
PLCN_OFFSET(plcn_setup, cycle_us, 12);
PLCN_OFFSET(plcn_setup, counter_1, 28);
PLCN_OFFSET(plcn_setup, thresholds, 44);
PLCN_OFFSET(plcn_setup, queue_capacity, 72);
PLCN_OFFSET(plcn_update, error_register, 8);
PLCN_OFFSET(plcn_update, cycle_us, 12);
PLCN_OFFSET(plcn_update, tolerance_ns, 20);
PLCN_OFFSET(plcn_update, counter_1, 28);
PLCN_OFFSET(plcn_entry, profile, 4);
PLCN_OFFSET(plcn_entry, seconds, 8);
PLCN_OFFSET(plcn_entry, additional, 16);
PLCN_OFFSET(plcn_handed_out, there, 24);
PLCN_OFFSET(plcn_due_answer, there, 8);
PLCN_OFFSET(plcn_frame_answer, logged, 1);
PLCN_OFFSET(plcn_frame_answer, has_nmt, 8);
PLCN_OFFSET(plcn_frame_answer, nmt, 9);
PLCN_OFFSET(plcn_error_answer, logged, 3);
PLCN_OFFSET(plcn_nmt_answer, reset, 7);
PLCN_OFFSET(plcn_run, number, 768);
PLCN_OFFSET(plcn_memory, queue, 776);
PLCN_OFFSET(plcn_memory, history, 1416);
PLCN_OFFSET(plcn_bitmap, nodes, 32);
PLCN_OFFSET(plcn_reset_steps, ranges, 6);
PLCN_OFFSET(plcn_reset_steps, range, 8);
PLCN_OFFSET(plcn_component, grams, 2);
PLCN_OFFSET(plcn_errors, error, 1);

#undef PLCN_OFFSET
#undef PLCN_SIZE
#undef PLCN_ASSERT

/* ---- A head ---- */

/**
 * Joins the two words of a time of a head.
 *
 * It answers the time, in us. Whether a time stands tells the field before it, as has_deadline.
 *
 * Parameters:
 *   time  the two words
 *
 * Refusals: none.
 *
 * Rules: our own; RULES 1.4.
 *
 * Example:
 *   if (head.has_deadline)
 *       printf("deadline %llu us\n", (unsigned long long)plcn_time(head.deadline));
 */
static inline uint64_t plcn_time(struct plcn_split_time time)
{
    return (uint64_t)time.high << 32 | time.low;
}

/**
 * Starts a head.
 *
 * The head is fresh whatever its memory held: at GsInitialising, ready, not enabled, with an empty
 * queue and an empty history. Each watched node counts as never heard.
 *
 * Parameters:
 *   head   gets the fresh head
 *   run    the run of watched nodes; the nodes' last-heard times become 0
 *   setup  what it is started with; its fields have their units
 *
 * Refusals, in order:
 *   PLCN_REFUSED_NODE_NUMBER      setup->node is not 1 to 240, 253, 254 or 255
 *   PLCN_REFUSED_QUEUE_CAPACITY   setup->queue_capacity is above 32
 *   PLCN_REFUSED_WATCHED_NODES    the run is not well formed
 *   PLCN_REFUSED_THRESHOLD_LIMIT  a threshold is above PLCN_HIGHEST_THRESHOLD
 *
 * Rules: our own; RULES 1.9 and 3.
 *
 * Example:
 *   struct plcn_setup setup = {.node = 7, .queue_capacity = 32};
 *   struct plcn_value cycle = {1, 1000};
 *   setup.cycle_us = cycle;
 *   uint32_t refused = plcn_start(&head, &run, &setup);
 *   if (refused != PLCN_OK)
 *       printf("refused: %u\n", (unsigned)refused);
 */
uint32_t plcn_start(struct plcn_head *head, struct plcn_run *run, const struct plcn_setup *setup);

/**
 * Makes an NMT event.
 *
 * The errors are reported and not counted. A reset forgets the enable, the ready word, the deadline
 * and the SoC check; plcn_reset_steps tells what it passes.
 *
 * Parameters:
 *   head    the head
 *   event   the number of the event, enum plcn_event
 *   answer  gets its errors and its reset
 *
 * Refusals, in order:
 *   PLCN_REFUSED_UNKNOWN_NUMBER  event is above 18
 *
 * Rules: DS 301, Section 7.1 and Appendix 3.7; RULES 4.
 *
 * Example:
 *   struct plcn_nmt_answer answer;
 *   if (plcn_nmt_event(&head, PLCN_EVENT_SW_RESET, &answer) == PLCN_OK)
 *       printf("reset %u, %u errors\n", answer.reset, answer.errors.count);
 */
uint32_t plcn_nmt_event(struct plcn_head *head, uint64_t event, struct plcn_nmt_answer *answer);

/**
 * Makes a DLL event.
 *
 * The DLL machine takes it in the head's own NMT state. The errors are reported and not counted.
 *
 * Parameters:
 *   head         the head
 *   event        the number of the event, enum plcn_dll_event
 *   expect_preq  whether a PReq is expected; any number but 0 is yes
 *   errors       gets the errors
 *
 * Refusals, in order:
 *   PLCN_REFUSED_UNKNOWN_NUMBER  event is above 5
 *
 * Rules: DS 301, Section 4.2.4.5; RULES 5.
 *
 * Example:
 *   struct plcn_errors errors;
 *   if (plcn_dll_event(&head, PLCN_DLL_EVENT_SOC, 1, &errors) == PLCN_OK)
 *       printf("%u errors\n", errors.count);
 */
uint32_t plcn_dll_event(struct plcn_head *head, uint64_t event, uint32_t expect_preq,
                        struct plcn_errors *errors);

/**
 * Gives an error to the counters.
 *
 * The action is asked for and not carried out. What a kind does not carry is not looked at.
 *
 * Parameters:
 *   head    the head
 *   kind    the number of its kind, enum plcn_error_kind
 *   a       the node of a kind that carries one, or the state of kind 18
 *   b       the event of kind 18
 *   answer  gets the action, whether it signals, and what is logged
 *
 * Refusals, in order:
 *   PLCN_REFUSED_UNKNOWN_NUMBER  kind is above 21
 *   PLCN_REFUSED_NODE_NUMBER     the kind carries a node, and a is not 1 to 240, 253, 254 or 255
 *
 * Rules: DS 301, Section 4.7; RULES 6.
 *
 * Example:
 *   struct plcn_error_answer answer;
 *   if (plcn_handle_error(&head, PLCN_KIND_CRC, 0, 0, &answer) == PLCN_OK)
 *       printf("action %u\n", answer.action);
 */
uint32_t plcn_handle_error(struct plcn_head *head, uint64_t kind, uint8_t a, uint8_t b,
                           struct plcn_error_answer *answer);

/**
 * Says that a cycle is complete.
 *
 * Each level above 0 falls by 1.
 *
 * Parameters:
 *   head    the head
 *   answer  gets whether the last level above 0 reached 0
 *
 * Refusals: none.
 *
 * Rules: DS 301, Section 4.7.4.1; RULES 6.4.
 *
 * Example:
 *   struct plcn_cycle_answer answer;
 *   plcn_cycle_complete(&head, &answer);
 *   printf("cleared: %u\n", answer.cleared);
 */
uint32_t plcn_cycle_complete(struct plcn_head *head, struct plcn_cycle_answer *answer);

/**
 * Withdraws the ready word.
 *
 * The application is not ready any more.
 *
 * Parameters:
 *   head  the head
 *
 * Refusals, in order:
 *   PLCN_REFUSED_READY_TO_OPERATE  the head is at ReadyToOperate
 *
 * Rules: our own; RULES 3 and 4.3.
 *
 * Example:
 *   if (plcn_withdraw(&head) == PLCN_REFUSED_READY_TO_OPERATE)
 *       puts("too late: the head is at ReadyToOperate");
 */
uint32_t plcn_withdraw(struct plcn_head *head);

/**
 * Says when a watched node was heard.
 *
 * Parameters:
 *   head     the head
 *   run      the run; the node's last-heard time becomes time_us
 *   node     the number of the node
 *   time_us  when it was heard, in us
 *
 * Refusals, in order:
 *   PLCN_REFUSED_WATCHED_NODES  the run is not well formed
 *   PLCN_REFUSED_TIME_LIMIT     time_us is above PLCN_LATEST_TIME
 *   PLCN_REFUSED_NOT_WATCHED    the node is not watched
 *
 * Rules: our own; RULES 3 and 8.
 *
 * Example:
 *   if (plcn_heard(&head, &run, 17, now) == PLCN_REFUSED_NOT_WATCHED)
 *       puts("node 17 is not watched");
 */
uint32_t plcn_heard(struct plcn_head *head, struct plcn_run *run, uint8_t node, uint64_t time_us);

/**
 * Hands out the oldest entry of the emergency queue.
 *
 * The entry leaves the queue.
 *
 * Parameters:
 *   head    the head
 *   queue   the bytes of its emergency queue
 *   answer  gets the entry, or that the queue is empty
 *
 * Refusals: none.
 *
 * Rules: DS 301, Tables 94 and 96; RULES 9.4.
 *
 * Example:
 *   struct plcn_handed_out answer;
 *   plcn_hand_out(&head, &queue, &answer);
 *   if (answer.there)
 *       printf("code 0x%04X\n", answer.entry.code);
 */
uint32_t plcn_hand_out(struct plcn_head *head, const struct plcn_queue *queue,
                       struct plcn_handed_out *answer);

/**
 * Loads values of the dictionary.
 *
 * The values that update names are set; the others stay. With update->set_history the entries
 * become the history: of more than 254 the newest 254, and bytes behind the last whole entry are no
 * entry.
 *
 * Parameters:
 *   head     the head
 *   history  the bytes of its error history
 *   update   which values are loaded, and with what
 *   entries  the bytes of the entries, PLCN_ENTRY_BYTES each, newest first; may be null where
 *            length is 0
 *   length   how many bytes there are; not looked at without update->set_history
 *
 * Refusals: none.
 *
 * Rules: our own; RULES 3 and 9.5.
 *
 * Example:
 *   struct plcn_update update = {.set_cycle = 1, .cycle_us = {1, 2000}};
 *   plcn_load(&head, &history, &update, NULL, 0);
 */
uint32_t plcn_load(struct plcn_head *head, struct plcn_history *history,
                   const struct plcn_update *update, const uint8_t *entries, uint64_t length);

/**
 * Arms the SoC check by the time of an SoC.
 *
 * With a cycle above 0 the check goes on, with the deadline time_us + limit; with cycle 0 the check
 * goes off and no deadline stands.
 *
 * Parameters:
 *   head     the head
 *   time_us  when the SoC came, in us
 *
 * Refusals, in order:
 *   PLCN_REFUSED_TIME_LIMIT  time_us is above PLCN_LATEST_TIME
 *
 * Rules: our own; RULES 3 and 7.6.
 *
 * Example:
 *   if (plcn_arm(&head, now) == PLCN_OK && head.has_deadline)
 *       printf("deadline %llu\n", (unsigned long long)plcn_time(head.deadline));
 */
uint32_t plcn_arm(struct plcn_head *head, uint64_t time_us);

/**
 * Makes a tick at a time.
 *
 * Late watched nodes, a lost SoC and the basic timeout are looked for. plcn_next_due tells when the
 * next tick is due.
 *
 * Parameters:
 *   head     the head
 *   queue    the bytes of its emergency queue
 *   history  the bytes of its error history
 *   run      the run; the last-heard time of a node that is late, or was never heard, becomes
 *            time_us
 *   time_us  the time, in us
 *   logged   gets what is logged
 *
 * Refusals, in order:
 *   PLCN_REFUSED_WATCHED_NODES  the run is not well formed
 *   PLCN_REFUSED_TIME_LIMIT     time_us is above PLCN_LATEST_TIME
 *   PLCN_REFUSED_BEFORE_HEARD   the state checks heartbeats, and a node was heard after time_us
 *
 * Rules: DS 301, Sections 4.2.4.5 and 4.7; RULES 7.
 *
 * Example:
 *   struct plcn_errors logged;
 *   uint32_t refused = plcn_tick(&head, &queue, &history, &run, now, &logged);
 *   if (refused == PLCN_OK)
 *       printf("%u errors logged\n", logged.count);
 */
uint32_t plcn_tick(struct plcn_head *head, struct plcn_queue *queue, struct plcn_history *history,
                   struct plcn_run *run, uint64_t time_us, struct plcn_errors *logged);

/**
 * Tells whether the SoC is lost between two readings of a clock.
 *
 * Both readings are included. Nothing changes; the SoC check need not be on.
 *
 * Parameters:
 *   head         the head
 *   earliest_us  the earliest reading, in us
 *   latest_us    the latest reading, in us
 *   answer       gets lost, kept or open, enum plcn_verdict
 *
 * Refusals, in order:
 *   PLCN_REFUSED_TIME_LIMIT             a reading is above PLCN_LATEST_TIME
 *   PLCN_REFUSED_EARLIEST_AFTER_LATEST  earliest_us is after latest_us
 *
 * Rules: our own; RULES 7.10.
 *
 * Example:
 *   struct plcn_range_answer answer;
 *   uint32_t refused = plcn_range(&head, now, now + 50, &answer);
 *   if (refused == PLCN_OK && answer.verdict == PLCN_SOC_OPEN)
 *       puts("some readings are a loss");
 */
uint32_t plcn_range(const struct plcn_head *head, uint64_t earliest_us, uint64_t latest_us,
                    struct plcn_range_answer *answer);

/**
 * Tells what is left of the limit of the SoC check.
 *
 * Nothing changes; the SoC check need not be on.
 *
 * Parameters:
 *   head     the head
 *   time_us  a reading of the clock, in us
 *   answer   gets limit minus elapsed time, in us; below 0 the SoC is lost
 *
 * Refusals, in order:
 *   PLCN_REFUSED_TIME_LIMIT  time_us is above PLCN_LATEST_TIME
 *
 * Rules: our own; RULES 7.10.
 *
 * Example:
 *   struct plcn_margin_answer answer;
 *   if (plcn_margin(&head, now, &answer) == PLCN_OK)
 *       printf("%lld us are left\n", (long long)answer.margin_us);
 */
uint32_t plcn_margin(const struct plcn_head *head, uint64_t time_us,
                     struct plcn_margin_answer *answer);

/**
 * Watches a node from now on.
 *
 * The node counts as never heard. The places behind the nodes are cleared.
 *
 * Parameters:
 *   head        the head
 *   run         the run, which gets the node in its place
 *   node        the number of the node
 *   timeout_us  it is late once it was not heard for longer, in us; 0: never late
 *
 * Refusals, in order:
 *   PLCN_REFUSED_NODE_NUMBER      node is not 1 to 240, 253, 254 or 255
 *   PLCN_REFUSED_WATCHED_NODES    the run is not well formed, or timeout_us is above
 *                                 PLCN_LATEST_TIME
 *   PLCN_REFUSED_ALREADY_WATCHED  the node is watched already
 *   PLCN_REFUSED_ALL_WATCHED      32 nodes are watched already
 *
 * Rules: our own; RULES 3 and 8.
 *
 * Example:
 *   uint32_t refused = plcn_add(&head, &run, 17, 5000);
 *   if (refused == PLCN_REFUSED_ALREADY_WATCHED)
 *       puts("node 17 is watched already");
 */
uint32_t plcn_add(struct plcn_head *head, struct plcn_run *run, uint8_t node, uint64_t timeout_us);

/**
 * Watches a node no more.
 *
 * The places behind the nodes are cleared.
 *
 * Parameters:
 *   head  the head
 *   run   the run, which the node leaves
 *   node  the number of the node
 *
 * Refusals, in order:
 *   PLCN_REFUSED_WATCHED_NODES  the run is not well formed
 *   PLCN_REFUSED_NOT_WATCHED    the node is not watched
 *
 * Rules: our own; RULES 3 and 8.
 *
 * Example:
 *   if (plcn_remove(&head, &run, 17) == PLCN_REFUSED_NOT_WATCHED)
 *       puts("node 17 was not watched");
 */
uint32_t plcn_remove(struct plcn_head *head, struct plcn_run *run, uint8_t node);

/**
 * Tells when the next tick is due.
 *
 * A tick that is taken before then finds nothing to do. Nothing changes.
 *
 * Parameters:
 *   head    the head
 *   run     the run of watched nodes
 *   answer  gets the moment, in us, 0 for at once; or that no tick is due
 *
 * Refusals, in order:
 *   PLCN_REFUSED_WATCHED_NODES  the run is not well formed
 *
 * Rules: our own; RULES 7.13.
 *
 * Example:
 *   struct plcn_due_answer due;
 *   if (plcn_next_due(&head, &run, &due) == PLCN_OK && due.there)
 *       printf("tick at %llu\n", (unsigned long long)due.time_us);
 */
uint32_t plcn_next_due(const struct plcn_head *head, const struct plcn_run *run,
                       struct plcn_due_answer *answer);

/**
 * Gives a frame that arrived to the head.
 *
 * The DLL machine and then the NMT machine take its event; an SoC arms the SoC check. A frame for
 * another node is taken and changes nothing.
 *
 * Parameters:
 *   head     the head
 *   queue    the bytes of its emergency queue
 *   history  the bytes of its error history
 *   time_us  when it arrived, in us
 *   bytes    the frame, from its destination's address on; may be null where length is 0
 *   length   how many bytes it has
 *   answer   gets whether the frame is for this node, what is logged and what its NMT event answers
 *
 * Refusals, in order:
 *   PLCN_REFUSED_FRAME_TOO_SHORT     fewer than 17 bytes
 *   PLCN_REFUSED_OTHER_ETHERTYPE     bytes 12 and 13 are not 0x88 and 0xAB
 *   PLCN_REFUSED_OTHER_MESSAGE_TYPE  byte 14 is none of enum plcn_message
 *   PLCN_REFUSED_FRAME_TOO_SHORT     an ASnd ends before its service, or with service 4 before its
 *                                    command
 *   PLCN_REFUSED_UNKNOWN_NUMBER      service 4 has none of enum plcn_command
 *   PLCN_REFUSED_TIME_LIMIT          time_us is above PLCN_LATEST_TIME
 *
 * Rules: DS 301, Section 4.2.4.5 and Appendix 3; RULES 13.
 *
 * Example:
 *   struct plcn_frame_answer answer;
 *   uint32_t refused = plcn_frame(&head, &queue, &history, now, bytes, length, &answer);
 *   if (refused == PLCN_OK && answer.ours)
 *       printf("%u errors logged\n", answer.logged.count);
 */
uint32_t plcn_frame(struct plcn_head *head, struct plcn_queue *queue, struct plcn_history *history,
                    uint64_t time_us, const uint8_t *bytes, uint64_t length,
                    struct plcn_frame_answer *answer);

/* ---- The watched nodes as places of any length ---- */

/* Each function .._over makes the call of its name over length places of the caller's, of which the
   first number are watched. PLCN_REFUSED_WATCHED_NODES also refuses a length that is not
   PLCN_WATCHED_PLACES; the order of the refusals is the same. */

/**
 * Starts a head, with places of any length.
 *
 * As plcn_start. The run is length places of the caller's, of which the first number are watched.
 *
 * Parameters:
 *   head    gets the fresh head
 *   places  the places of the run; the nodes' last-heard times become 0
 *   length  how many places there are
 *   number  how many of them are watched
 *   setup   what it is started with; its fields have their units
 *
 * Refusals, in order:
 *   PLCN_REFUSED_NODE_NUMBER      setup->node is not 1 to 240, 253, 254 or 255
 *   PLCN_REFUSED_QUEUE_CAPACITY   setup->queue_capacity is above 32
 *   PLCN_REFUSED_WATCHED_NODES    length is not 32, or the run is not well formed
 *   PLCN_REFUSED_THRESHOLD_LIMIT  a threshold is above PLCN_HIGHEST_THRESHOLD
 *
 * Rules: our own; RULES 1.9 and 3.
 *
 * Example:
 *   struct plcn_setup setup = {.node = 7, .queue_capacity = 32};
 *   struct plcn_value cycle = {1, 1000};
 *   setup.cycle_us = cycle;
 *   uint32_t refused = plcn_start_over(&head, places, 32, number, &setup);
 *   if (refused != PLCN_OK)
 *       printf("refused: %u\n", (unsigned)refused);
 */
uint32_t plcn_start_over(struct plcn_head *head, struct plcn_watched *places, uint64_t length,
                         uint64_t number, const struct plcn_setup *setup);

/**
 * Says when a watched node was heard, with places of any length.
 *
 * As plcn_heard. The run is length places of the caller's, of which the first number are watched.
 *
 * Parameters:
 *   head     the head
 *   places   the places of the run; the node's last-heard time becomes time_us
 *   length   how many places there are
 *   number   how many of them are watched
 *   node     the number of the node
 *   time_us  when it was heard, in us
 *
 * Refusals, in order:
 *   PLCN_REFUSED_WATCHED_NODES  length is not 32, or the run is not well formed
 *   PLCN_REFUSED_TIME_LIMIT     time_us is above PLCN_LATEST_TIME
 *   PLCN_REFUSED_NOT_WATCHED    the node is not watched
 *
 * Rules: our own; RULES 3 and 8.
 *
 * Example:
 *   if (plcn_heard_over(&head, places, 32, number, 17, now) == PLCN_REFUSED_NOT_WATCHED)
 *       puts("node 17 is not watched");
 */
uint32_t plcn_heard_over(struct plcn_head *head, struct plcn_watched *places, uint64_t length,
                         uint64_t number, uint8_t node, uint64_t time_us);

/**
 * Makes a tick at a time, with places of any length.
 *
 * As plcn_tick. The run is length places of the caller's, of which the first number are watched.
 *
 * Parameters:
 *   head     the head
 *   queue    the bytes of its emergency queue
 *   history  the bytes of its error history
 *   places   the places of the run; the last-heard time of a node that is late, or was never heard,
 *            becomes time_us
 *   length   how many places there are
 *   number   how many of them are watched
 *   time_us  the time, in us
 *   logged   gets what is logged
 *
 * Refusals, in order:
 *   PLCN_REFUSED_WATCHED_NODES  length is not 32, or the run is not well formed
 *   PLCN_REFUSED_TIME_LIMIT     time_us is above PLCN_LATEST_TIME
 *   PLCN_REFUSED_BEFORE_HEARD   the state checks heartbeats, and a node was heard after time_us
 *
 * Rules: DS 301, Sections 4.2.4.5 and 4.7; RULES 7.
 *
 * Example:
 *   struct plcn_errors logged;
 *   uint32_t refused = plcn_tick_over(&head, &queue, &history, places, 32, number, now, &logged);
 *   if (refused == PLCN_OK)
 *       printf("%u errors logged\n", logged.count);
 */
uint32_t plcn_tick_over(struct plcn_head *head, struct plcn_queue *queue,
                        struct plcn_history *history, struct plcn_watched *places, uint64_t length,
                        uint64_t number, uint64_t time_us, struct plcn_errors *logged);

/**
 * Watches a node from now on, with places of any length.
 *
 * As plcn_add. The run is length places of the caller's, of which the first number are watched.
 *
 * Parameters:
 *   head        the head
 *   places      the places of the run, which gets the node in its place
 *   length      how many places there are
 *   number      how many of them are watched; 1 more behind the call
 *   node        the number of the node
 *   timeout_us  it is late once it was not heard for longer, in us; 0: never late
 *
 * Refusals, in order:
 *   PLCN_REFUSED_NODE_NUMBER      node is not 1 to 240, 253, 254 or 255
 *   PLCN_REFUSED_WATCHED_NODES    length is not 32, the run is not well formed, or timeout_us is
 *                                 above PLCN_LATEST_TIME
 *   PLCN_REFUSED_ALREADY_WATCHED  the node is watched already
 *   PLCN_REFUSED_ALL_WATCHED      32 nodes are watched already
 *
 * Rules: our own; RULES 3 and 8.
 *
 * Example:
 *   uint32_t refused = plcn_add_over(&head, places, 32, &number, 17, 5000);
 *   if (refused == PLCN_REFUSED_ALREADY_WATCHED)
 *       puts("node 17 is watched already");
 */
uint32_t plcn_add_over(struct plcn_head *head, struct plcn_watched *places, uint64_t length,
                       uint64_t *number, uint8_t node, uint64_t timeout_us);

/**
 * Watches a node no more, with places of any length.
 *
 * As plcn_remove. The run is length places of the caller's, of which the first number are watched.
 *
 * Parameters:
 *   head    the head
 *   places  the places of the run, which the node leaves
 *   length  how many places there are
 *   number  how many of them are watched; 1 less behind the call
 *   node    the number of the node
 *
 * Refusals, in order:
 *   PLCN_REFUSED_WATCHED_NODES  length is not 32, or the run is not well formed
 *   PLCN_REFUSED_NOT_WATCHED    the node is not watched
 *
 * Rules: our own; RULES 3 and 8.
 *
 * Example:
 *   if (plcn_remove_over(&head, places, 32, &number, 17) == PLCN_REFUSED_NOT_WATCHED)
 *       puts("node 17 was not watched");
 */
uint32_t plcn_remove_over(struct plcn_head *head, struct plcn_watched *places, uint64_t length,
                          uint64_t *number, uint8_t node);

/**
 * Tells when the next tick is due, with places of any length.
 *
 * As plcn_next_due. The run is length places of the caller's, of which the first number are
 * watched.
 *
 * Parameters:
 *   head    the head
 *   places  the places of the run
 *   length  how many places there are
 *   number  how many of them are watched
 *   answer  gets the moment, in us, 0 for at once; or that no tick is due
 *
 * Refusals, in order:
 *   PLCN_REFUSED_WATCHED_NODES  length is not 32, or the run is not well formed
 *
 * Rules: our own; RULES 7.13.
 *
 * Example:
 *   struct plcn_due_answer due;
 *   if (plcn_next_due_over(&head, places, 32, number, &due) == PLCN_OK && due.there)
 *       printf("tick at %llu\n", (unsigned long long)due.time_us);
 */
uint32_t plcn_next_due_over(const struct plcn_head *head, const struct plcn_watched *places,
                            uint64_t length, uint64_t number, struct plcn_due_answer *answer);

/**
 * Tells the watched nodes as bits, with places of any length.
 *
 * As plcn_bitmap. The run is length places of the caller's, of which the first number are watched.
 *
 * Parameters:
 *   places  the places of the run
 *   length  how many places there are
 *   number  how many of them are watched
 *   answer  gets 32 bytes, a bit for each node, and how many are set
 *
 * Refusals, in order:
 *   PLCN_REFUSED_WATCHED_NODES  length is not 32, or the run is not well formed
 *
 * Rules: our own; RULES 8.7.
 *
 * Example:
 *   struct plcn_bitmap bits;
 *   if (plcn_bitmap_over(places, 32, number, &bits) == PLCN_OK)
 *       printf("%u nodes\n", (unsigned)bits.nodes);
 */
uint32_t plcn_bitmap_over(const struct plcn_watched *places, uint64_t length, uint64_t number,
                          struct plcn_bitmap *answer);

/* ---- A weigh head ---- */

/**
 * Starts a weigh head.
 *
 * Its node is fresh as behind plcn_start, whatever its memory held, and all its places are empty.
 * Each watched node of memory->run counts as never heard.
 *
 * Parameters:
 *   weigh   gets the fresh weigh head
 *   memory  what is lent to it: run, queue and history
 *   setup   what it is started with; its fields have their units
 *
 * Refusals, in order:
 *   PLCN_REFUSED_NODE_NUMBER      setup->node is not 1 to 240, 253, 254 or 255
 *   PLCN_REFUSED_QUEUE_CAPACITY   setup->queue_capacity is above 32
 *   PLCN_REFUSED_WATCHED_NODES    memory->run is not well formed
 *   PLCN_REFUSED_THRESHOLD_LIMIT  a threshold is above PLCN_HIGHEST_THRESHOLD
 *
 * Rules: our own; RULES 12.2.
 *
 * Example:
 *   struct plcn_setup setup = {.node = 7, .queue_capacity = 32};
 *   uint32_t refused = plcn_weigh_start(&weigh, &memory, &setup);
 *   if (refused != PLCN_OK)
 *       printf("refused: %u\n", (unsigned)refused);
 */
uint32_t plcn_weigh_start(struct plcn_weigh *weigh, struct plcn_memory *memory,
                          const struct plcn_setup *setup);

/**
 * Makes an NMT event on a weigh head.
 *
 * As plcn_nmt_event on its node. A reset empties all places too.
 *
 * Parameters:
 *   weigh   the weigh head
 *   memory  what is lent to it: run, queue and history
 *   event   the number of the event, enum plcn_event
 *   answer  gets its errors and its reset
 *
 * Refusals, in order:
 *   PLCN_REFUSED_UNKNOWN_NUMBER  event is above 18
 *
 * Rules: our own; RULES 12.2 and 12.5.
 *
 * Example:
 *   struct plcn_nmt_answer answer;
 *   if (plcn_weigh_nmt_event(&weigh, &memory, PLCN_EVENT_SW_RESET, &answer) == PLCN_OK)
 *       printf("reset %u, %u errors\n", answer.reset, answer.errors.count);
 */
uint32_t plcn_weigh_nmt_event(struct plcn_weigh *weigh, struct plcn_memory *memory, uint64_t event,
                              struct plcn_nmt_answer *answer);

/**
 * Makes a DLL event on a weigh head.
 *
 * As plcn_dll_event on its node.
 *
 * Parameters:
 *   weigh        the weigh head
 *   memory       what is lent to it: run, queue and history
 *   event        the number of the event, enum plcn_dll_event
 *   expect_preq  whether a PReq is expected; any number but 0 is yes
 *   errors       gets the errors
 *
 * Refusals, in order:
 *   PLCN_REFUSED_UNKNOWN_NUMBER  event is above 5
 *
 * Rules: our own; RULES 12.2.
 *
 * Example:
 *   struct plcn_errors errors;
 *   if (plcn_weigh_dll_event(&weigh, &memory, PLCN_DLL_EVENT_SOC, 1, &errors) == PLCN_OK)
 *       printf("%u errors\n", errors.count);
 */
uint32_t plcn_weigh_dll_event(struct plcn_weigh *weigh, struct plcn_memory *memory, uint64_t event,
                              uint32_t expect_preq, struct plcn_errors *errors);

/**
 * Gives an error to the counters of a weigh head.
 *
 * As plcn_handle_error on its node.
 *
 * Parameters:
 *   weigh   the weigh head
 *   memory  what is lent to it: run, queue and history
 *   kind    the number of its kind, enum plcn_error_kind
 *   a       the node of a kind that carries one, or the state of kind 18
 *   b       the event of kind 18
 *   answer  gets the action, whether it signals, and what is logged
 *
 * Refusals, in order:
 *   PLCN_REFUSED_UNKNOWN_NUMBER  kind is above 21
 *   PLCN_REFUSED_NODE_NUMBER     the kind carries a node, and a is not 1 to 240, 253, 254 or 255
 *
 * Rules: our own; RULES 12.2.
 *
 * Example:
 *   struct plcn_error_answer answer;
 *   if (plcn_weigh_handle_error(&weigh, &memory, PLCN_KIND_CRC, 0, 0, &answer) == PLCN_OK)
 *       printf("action %u\n", answer.action);
 */
uint32_t plcn_weigh_handle_error(struct plcn_weigh *weigh, struct plcn_memory *memory,
                                 uint64_t kind, uint8_t a, uint8_t b,
                                 struct plcn_error_answer *answer);

/**
 * Says that a cycle of a weigh head is complete.
 *
 * As plcn_cycle_complete on its node.
 *
 * Parameters:
 *   weigh   the weigh head
 *   memory  what is lent to it: run, queue and history
 *   answer  gets whether the last level above 0 reached 0
 *
 * Refusals: none.
 *
 * Rules: our own; RULES 12.2.
 *
 * Example:
 *   struct plcn_cycle_answer answer;
 *   plcn_weigh_cycle_complete(&weigh, &memory, &answer);
 *   printf("cleared: %u\n", answer.cleared);
 */
uint32_t plcn_weigh_cycle_complete(struct plcn_weigh *weigh, struct plcn_memory *memory,
                                   struct plcn_cycle_answer *answer);

/**
 * Withdraws the ready word of a weigh head.
 *
 * As plcn_withdraw on its node.
 *
 * Parameters:
 *   weigh   the weigh head
 *   memory  what is lent to it: run, queue and history
 *
 * Refusals, in order:
 *   PLCN_REFUSED_READY_TO_OPERATE  its node is at ReadyToOperate
 *
 * Rules: our own; RULES 12.2.
 *
 * Example:
 *   if (plcn_weigh_withdraw(&weigh, &memory) == PLCN_REFUSED_READY_TO_OPERATE)
 *       puts("too late: the head is at ReadyToOperate");
 */
uint32_t plcn_weigh_withdraw(struct plcn_weigh *weigh, struct plcn_memory *memory);

/**
 * Says when a node that a weigh head watches was heard.
 *
 * As plcn_heard on its node and memory->run.
 *
 * Parameters:
 *   weigh    the weigh head
 *   memory   what is lent to it: run, queue and history
 *   node     the number of the node
 *   time_us  when it was heard, in us
 *
 * Refusals, in order:
 *   PLCN_REFUSED_WATCHED_NODES  memory->run is not well formed
 *   PLCN_REFUSED_TIME_LIMIT     time_us is above PLCN_LATEST_TIME
 *   PLCN_REFUSED_NOT_WATCHED    the node is not watched
 *
 * Rules: our own; RULES 12.2.
 *
 * Example:
 *   if (plcn_weigh_heard(&weigh, &memory, 17, now) == PLCN_REFUSED_NOT_WATCHED)
 *       puts("node 17 is not watched");
 */
uint32_t plcn_weigh_heard(struct plcn_weigh *weigh, struct plcn_memory *memory, uint8_t node,
                          uint64_t time_us);

/**
 * Hands out the oldest entry of a weigh head's emergency queue.
 *
 * The entry leaves memory->queue.
 *
 * Parameters:
 *   weigh   the weigh head
 *   memory  what is lent to it: run, queue and history
 *   answer  gets the entry, or that the queue is empty
 *
 * Refusals: none.
 *
 * Rules: our own; RULES 12.2.
 *
 * Example:
 *   struct plcn_handed_out answer;
 *   plcn_weigh_hand_out(&weigh, &memory, &answer);
 *   if (answer.there)
 *       printf("code 0x%04X\n", answer.entry.code);
 */
uint32_t plcn_weigh_hand_out(struct plcn_weigh *weigh, struct plcn_memory *memory,
                             struct plcn_handed_out *answer);

/**
 * Loads values of the dictionary of a weigh head.
 *
 * As plcn_load on its node and memory->history.
 *
 * Parameters:
 *   weigh    the weigh head
 *   memory   what is lent to it: run, queue and history
 *   update   which values are loaded, and with what
 *   entries  the bytes of the entries, PLCN_ENTRY_BYTES each, newest first; may be null where
 *            length is 0
 *   length   how many bytes there are; not looked at without update->set_history
 *
 * Refusals: none.
 *
 * Rules: our own; RULES 12.2.
 *
 * Example:
 *   struct plcn_update update = {.set_cycle = 1, .cycle_us = {1, 2000}};
 *   plcn_weigh_load(&weigh, &memory, &update, NULL, 0);
 */
uint32_t plcn_weigh_load(struct plcn_weigh *weigh, struct plcn_memory *memory,
                         const struct plcn_update *update, const uint8_t *entries, uint64_t length);

/**
 * Arms the SoC check of a weigh head.
 *
 * As plcn_arm on its node.
 *
 * Parameters:
 *   weigh    the weigh head
 *   memory   what is lent to it: run, queue and history
 *   time_us  when the SoC came, in us
 *
 * Refusals, in order:
 *   PLCN_REFUSED_TIME_LIMIT  time_us is above PLCN_LATEST_TIME
 *
 * Rules: our own; RULES 12.2.
 *
 * Example:
 *   if (plcn_weigh_arm(&weigh, &memory, now) == PLCN_OK)
 *       puts("armed");
 */
uint32_t plcn_weigh_arm(struct plcn_weigh *weigh, struct plcn_memory *memory, uint64_t time_us);

/**
 * Makes a tick of a weigh head at a time.
 *
 * As plcn_tick on its node and memory.
 *
 * Parameters:
 *   weigh    the weigh head
 *   memory   what is lent to it: run, queue and history
 *   time_us  the time, in us
 *   logged   gets what is logged
 *
 * Refusals, in order:
 *   PLCN_REFUSED_WATCHED_NODES  memory->run is not well formed
 *   PLCN_REFUSED_TIME_LIMIT     time_us is above PLCN_LATEST_TIME
 *   PLCN_REFUSED_BEFORE_HEARD   the state checks heartbeats, and a node was heard after time_us
 *
 * Rules: our own; RULES 12.2.
 *
 * Example:
 *   struct plcn_errors logged;
 *   uint32_t refused = plcn_weigh_tick(&weigh, &memory, now, &logged);
 *   if (refused == PLCN_OK)
 *       printf("%u errors logged\n", logged.count);
 */
uint32_t plcn_weigh_tick(struct plcn_weigh *weigh, struct plcn_memory *memory, uint64_t time_us,
                         struct plcn_errors *logged);

/**
 * Tells whether a weigh head's SoC is lost between two readings of a clock.
 *
 * As plcn_range on its node.
 *
 * Parameters:
 *   weigh        the weigh head
 *   earliest_us  the earliest reading, in us
 *   latest_us    the latest reading, in us
 *   answer       gets lost, kept or open, enum plcn_verdict
 *
 * Refusals, in order:
 *   PLCN_REFUSED_TIME_LIMIT             a reading is above PLCN_LATEST_TIME
 *   PLCN_REFUSED_EARLIEST_AFTER_LATEST  earliest_us is after latest_us
 *
 * Rules: our own; RULES 12.2.
 *
 * Example:
 *   struct plcn_range_answer answer;
 *   uint32_t refused = plcn_weigh_range(&weigh, now, now + 50, &answer);
 *   if (refused == PLCN_OK && answer.verdict == PLCN_SOC_OPEN)
 *       puts("some readings are a loss");
 */
uint32_t plcn_weigh_range(const struct plcn_weigh *weigh, uint64_t earliest_us, uint64_t latest_us,
                          struct plcn_range_answer *answer);

/**
 * Tells what is left of the limit of a weigh head's SoC check.
 *
 * As plcn_margin on its node.
 *
 * Parameters:
 *   weigh    the weigh head
 *   time_us  a reading of the clock, in us
 *   answer   gets limit minus elapsed time, in us; below 0 the SoC is lost
 *
 * Refusals, in order:
 *   PLCN_REFUSED_TIME_LIMIT  time_us is above PLCN_LATEST_TIME
 *
 * Rules: our own; RULES 12.2.
 *
 * Example:
 *   struct plcn_margin_answer answer;
 *   if (plcn_weigh_margin(&weigh, now, &answer) == PLCN_OK)
 *       printf("%lld us are left\n", (long long)answer.margin_us);
 */
uint32_t plcn_weigh_margin(const struct plcn_weigh *weigh, uint64_t time_us,
                           struct plcn_margin_answer *answer);

/**
 * Lets a weigh head watch a node from now on.
 *
 * As plcn_add on its node and memory->run.
 *
 * Parameters:
 *   weigh       the weigh head
 *   memory      what is lent to it: run, queue and history
 *   node        the number of the node
 *   timeout_us  it is late once it was not heard for longer, in us; 0: never late
 *
 * Refusals, in order:
 *   PLCN_REFUSED_NODE_NUMBER      node is not 1 to 240, 253, 254 or 255
 *   PLCN_REFUSED_WATCHED_NODES    memory->run is not well formed, or timeout_us is above
 *                                 PLCN_LATEST_TIME
 *   PLCN_REFUSED_ALREADY_WATCHED  the node is watched already
 *   PLCN_REFUSED_ALL_WATCHED      32 nodes are watched already
 *
 * Rules: our own; RULES 12.2.
 *
 * Example:
 *   uint32_t refused = plcn_weigh_add(&weigh, &memory, 17, 5000);
 *   if (refused == PLCN_REFUSED_ALREADY_WATCHED)
 *       puts("node 17 is watched already");
 */
uint32_t plcn_weigh_add(struct plcn_weigh *weigh, struct plcn_memory *memory, uint8_t node,
                        uint64_t timeout_us);

/**
 * Lets a weigh head watch a node no more.
 *
 * As plcn_remove on its node and memory->run.
 *
 * Parameters:
 *   weigh   the weigh head
 *   memory  what is lent to it: run, queue and history
 *   node    the number of the node
 *
 * Refusals, in order:
 *   PLCN_REFUSED_WATCHED_NODES  memory->run is not well formed
 *   PLCN_REFUSED_NOT_WATCHED    the node is not watched
 *
 * Rules: our own; RULES 12.2.
 *
 * Example:
 *   if (plcn_weigh_remove(&weigh, &memory, 17) == PLCN_REFUSED_NOT_WATCHED)
 *       puts("node 17 was not watched");
 */
uint32_t plcn_weigh_remove(struct plcn_weigh *weigh, struct plcn_memory *memory, uint8_t node);

/**
 * Tells when the next tick of a weigh head is due.
 *
 * As plcn_next_due on its node and memory->run.
 *
 * Parameters:
 *   weigh   the weigh head
 *   memory  what is lent to it: run, queue and history
 *   answer  gets the moment, in us, 0 for at once; or that no tick is due
 *
 * Refusals, in order:
 *   PLCN_REFUSED_WATCHED_NODES  memory->run is not well formed
 *
 * Rules: our own; RULES 12.2.
 *
 * Example:
 *   struct plcn_due_answer due;
 *   if (plcn_weigh_next_due(&weigh, &memory, &due) == PLCN_OK && due.there)
 *       printf("tick at %llu\n", (unsigned long long)due.time_us);
 */
uint32_t plcn_weigh_next_due(const struct plcn_weigh *weigh, const struct plcn_memory *memory,
                             struct plcn_due_answer *answer);

/**
 * Gives a frame that arrived to a weigh head.
 *
 * As plcn_frame on its node and memory. A reset by command empties all places too.
 *
 * Parameters:
 *   weigh    the weigh head
 *   memory   what is lent to it: run, queue and history
 *   time_us  when it arrived, in us
 *   bytes    the frame, from its destination's address on; may be null where length is 0
 *   length   how many bytes it has
 *   answer   gets whether the frame is for this node, what is logged and what its NMT event answers
 *
 * Refusals, in order:
 *   PLCN_REFUSED_FRAME_TOO_SHORT     fewer than 17 bytes
 *   PLCN_REFUSED_OTHER_ETHERTYPE     bytes 12 and 13 are not 0x88 and 0xAB
 *   PLCN_REFUSED_OTHER_MESSAGE_TYPE  byte 14 is none of enum plcn_message
 *   PLCN_REFUSED_FRAME_TOO_SHORT     an ASnd ends before its service, or with service 4 before its
 *                                    command
 *   PLCN_REFUSED_UNKNOWN_NUMBER      service 4 has none of enum plcn_command
 *   PLCN_REFUSED_TIME_LIMIT          time_us is above PLCN_LATEST_TIME
 *
 * Rules: our own; RULES 12.2 and 12.5.
 *
 * Example:
 *   struct plcn_frame_answer answer;
 *   uint32_t refused = plcn_weigh_frame(&weigh, &memory, now, bytes, length, &answer);
 *   if (refused == PLCN_OK && answer.ours)
 *       printf("%u errors logged\n", answer.logged.count);
 */
uint32_t plcn_weigh_frame(struct plcn_weigh *weigh, struct plcn_memory *memory, uint64_t time_us,
                          const uint8_t *bytes, uint64_t length, struct plcn_frame_answer *answer);

/**
 * Loads a recipe into a weigh head.
 *
 * The components fill the places in their order, and the places behind them are empty. Then the
 * node gets the application's ready word.
 *
 * Parameters:
 *   weigh       the weigh head
 *   memory      what is lent to it: run, queue and history
 *   components  the components, in their order; may be null where number is 0
 *   number      how many there are
 *
 * Refusals, in order:
 *   PLCN_REFUSED_RECIPE_LIMITS        number is not 1 to 16, a bin is not 1 to 64 or stands twice,
 *                                     or grams are not 1 to 30,000
 *   PLCN_REFUSED_NOT_PREOPERATIONAL2  its node is not at PreOperational2
 *
 * Rules: our own; RULES 12.1 and 12.3.
 *
 * Example:
 *   struct plcn_component recipe[2] = {{3, 1200}, {7, 250}};
 *   if (plcn_weigh_load_recipe(&weigh, &memory, recipe, 2) == PLCN_REFUSED_NOT_PREOPERATIONAL2)
 *       puts("a recipe is loaded in PreOperational2");
 */
uint32_t plcn_weigh_load_recipe(struct plcn_weigh *weigh, struct plcn_memory *memory,
                                const struct plcn_component *components, uint64_t number);

/**
 * Tells the weight for a place.
 *
 * It is that of the recipe last loaded since the last reset. Nothing changes.
 *
 * Parameters:
 *   weigh  the weigh head
 *   place  the place, from 0
 *   grams  gets the weight, in grams
 *
 * Refusals, in order:
 *   PLCN_REFUSED_NO_WEIGHT  its node is not at Operational, or the recipe has no such place
 *
 * Rules: our own; RULES 12.4.
 *
 * Example:
 *   uint16_t grams;
 *   if (plcn_weigh_weight(&weigh, 0, &grams) == PLCN_OK)
 *       printf("%u g\n", grams);
 */
uint32_t plcn_weigh_weight(const struct plcn_weigh *weigh, uint64_t place, uint16_t *grams);

/**
 * Copies the head of a weigh head, to be read.
 *
 * Nothing but the copy changes.
 *
 * Parameters:
 *   weigh  the weigh head
 *   head   gets the copy; plcn_queue_entry and plcn_history_entry read entries by it
 *
 * Refusals: none.
 *
 * Rules: our own; RULES 1 and 12.2.
 *
 * Example:
 *   struct plcn_head copy;
 *   plcn_weigh_head(&weigh, &copy);
 *   struct plcn_text name = plcn_state_name(copy.state);
 *   puts(name.text);
 */
uint32_t plcn_weigh_head(const struct plcn_weigh *weigh, struct plcn_head *head);

/**
 * Copies the places of a weigh head.
 *
 * A place without a component has bin 0 and 0 grams. Nothing but the copy changes.
 *
 * Parameters:
 *   weigh   the weigh head
 *   places  gets the PLCN_RECIPE_PLACES places
 *
 * Refusals: none.
 *
 * Rules: our own; RULES 12.2.
 *
 * Example:
 *   struct plcn_component copies[PLCN_RECIPE_PLACES];
 *   plcn_weigh_places(&weigh, copies);
 *   printf("bin %u: %u g\n", copies[0].bin, copies[0].grams);
 */
uint32_t plcn_weigh_places(const struct plcn_weigh *weigh,
                           struct plcn_component places[PLCN_RECIPE_PLACES]);

/* ---- Entries, frames, numbers ---- */

/**
 * Tells an entry of an emergency queue by its place.
 *
 * Nothing changes.
 *
 * Parameters:
 *   head    the head
 *   queue   the bytes of its emergency queue
 *   index   the place, from 0, which is the oldest
 *   answer  gets the entry; there is 0 behind the last one
 *
 * Refusals: none.
 *
 * Rules: DS 301, Tables 94 and 96; RULES 9.
 *
 * Example:
 *   struct plcn_handed_out entry;
 *   plcn_queue_entry(&head, &queue, 0, &entry);
 *   if (entry.there)
 *       printf("the oldest has the code 0x%04X\n", entry.entry.code);
 */
uint32_t plcn_queue_entry(const struct plcn_head *head, const struct plcn_queue *queue,
                          uint64_t index, struct plcn_handed_out *answer);

/**
 * Tells an entry of an error history by its place.
 *
 * Nothing changes.
 *
 * Parameters:
 *   head     the head
 *   history  the bytes of its error history
 *   index    the place, from 0, which is the newest
 *   answer   gets the entry; there is 0 behind the last one
 *
 * Refusals: none.
 *
 * Rules: DS 301, Tables 94 and 96; RULES 9.
 *
 * Example:
 *   struct plcn_handed_out entry;
 *   plcn_history_entry(&head, &history, 0, &entry);
 *   if (entry.there)
 *       printf("the newest has the code 0x%04X\n", entry.entry.code);
 */
uint32_t plcn_history_entry(const struct plcn_head *head, const struct plcn_history *history,
                            uint64_t index, struct plcn_handed_out *answer);

/**
 * Writes the 20 bytes of an entry at a place of a buffer.
 *
 * All other bytes stay.
 *
 * Parameters:
 *   buffer  the buffer; may be null where length is 0
 *   length  how many bytes it has
 *   place   the place of the entry's first byte, from 0
 *   entry   the entry
 *
 * Refusals, in order:
 *   PLCN_REFUSED_UNKNOWN_NUMBER    entry->mode is above 3
 *   PLCN_REFUSED_BUFFER_TOO_SHORT  fewer than 20 bytes are left from the place on
 *   PLCN_REFUSED_PROFILE_LIMIT     entry->profile is above 4095
 *
 * Rules: DS 301, Tables 94 and 96; RULES 9.3 and 9.6.
 *
 * Example:
 *   uint8_t buffer[PLCN_ENTRY_BYTES];
 *   struct plcn_entry entry = {.mode = PLCN_MODE_EVENT_OCCURRED, .profile = 2, .code = 0x8245};
 *   if (plcn_entry_write(buffer, sizeof buffer, 0, &entry) == PLCN_OK)
 *       printf("%02X%02X\n", buffer[2], buffer[3]);
 */
uint32_t plcn_entry_write(uint8_t *buffer, uint64_t length, uint64_t place,
                          const struct plcn_entry *entry);

/**
 * Reads the entry in the 20 bytes at a place of a buffer.
 *
 * Any 20 bytes are an entry.
 *
 * Parameters:
 *   buffer  the buffer; may be null where length is 0
 *   length  how many bytes it has
 *   place   the place of the entry's first byte, from 0
 *   entry   gets the entry
 *
 * Refusals, in order:
 *   PLCN_REFUSED_BUFFER_TOO_SHORT  fewer than 20 bytes are left from the place on
 *
 * Rules: DS 301, Tables 94 and 96; RULES 9.3 and 9.6.
 *
 * Example:
 *   struct plcn_entry entry;
 *   if (plcn_entry_read(history.entry[0], PLCN_ENTRY_BYTES, 0, &entry) == PLCN_OK)
 *       printf("%u s\n", (unsigned)entry.seconds);
 */
uint32_t plcn_entry_read(const uint8_t *buffer, uint64_t length, uint64_t place,
                         struct plcn_entry *entry);

/**
 * Reads a frame.
 *
 * It needs no head, and tells nothing of what a head makes of the frame.
 *
 * Parameters:
 *   bytes   the frame, from its destination's address on; may be null where length is 0
 *   length  how many bytes it has
 *   frame   gets what is read
 *
 * Refusals, in order:
 *   PLCN_REFUSED_FRAME_TOO_SHORT     fewer than 17 bytes
 *   PLCN_REFUSED_OTHER_ETHERTYPE     bytes 12 and 13 are not 0x88 and 0xAB
 *   PLCN_REFUSED_OTHER_MESSAGE_TYPE  byte 14 is none of enum plcn_message
 *   PLCN_REFUSED_FRAME_TOO_SHORT     an ASnd ends before its service, or with service 4 before its
 *                                    command
 *   PLCN_REFUSED_UNKNOWN_NUMBER      service 4 has none of enum plcn_command
 *
 * Rules: DS 301, Appendix 3; RULES 13.1 and 13.2.
 *
 * Example:
 *   struct plcn_frame frame;
 *   if (plcn_frame_read(bytes, length, &frame) == PLCN_OK && frame.message == PLCN_MESSAGE_SOC)
 *       puts("a cycle begins");
 */
uint32_t plcn_frame_read(const uint8_t *bytes, uint64_t length, struct plcn_frame *frame);

/**
 * Tells the watched nodes as bits.
 *
 * Nothing changes.
 *
 * Parameters:
 *   run     the run of watched nodes
 *   answer  gets 32 bytes, a bit for each node, and how many are set
 *
 * Refusals, in order:
 *   PLCN_REFUSED_WATCHED_NODES  the run is not well formed
 *
 * Rules: our own; RULES 8.7.
 *
 * Example:
 *   struct plcn_bitmap bits;
 *   if (plcn_bitmap(&run, &bits) == PLCN_OK && bits.byte[17 / 8] >> 17 % 8 & 1)
 *       puts("node 17 is watched");
 */
uint32_t plcn_bitmap(const struct plcn_run *run, struct plcn_bitmap *answer);

/**
 * Tells what a reset passes.
 *
 * There are 0 states and 0 ranges for a number that is none of enum plcn_reset.
 *
 * Parameters:
 *   reset  the number of the reset, enum plcn_reset
 *   steps  gets the states that it enters and the ranges of the dictionary to be restored, in order
 *
 * Refusals: none.
 *
 * Rules: DS 301, Section 7.1; RULES 4.4.
 *
 * Example:
 *   struct plcn_reset_steps steps;
 *   plcn_reset_steps(PLCN_RESET_NODE, &steps);
 *   for (unsigned i = 0; i < steps.ranges; i++)
 *       printf("restore 0x%04X to 0x%04X\n", steps.range[i].first, steps.range[i].last);
 */
uint32_t plcn_reset_steps(uint32_t reset, struct plcn_reset_steps *steps);

/**
 * Reads a number as an NMT state.
 *
 * Parameters:
 *   number  the number
 *   state   gets the state, enum plcn_state
 *
 * Refusals, in order:
 *   PLCN_REFUSED_UNKNOWN_NUMBER  no state has the number
 *
 * Rules: DS 301, Appendix 3.6; RULES 4.8.
 *
 * Example:
 *   uint8_t state;
 *   if (plcn_read_state(0x6D, &state) == PLCN_OK)
 *       printf("ReadyToOperate is %u\n", state);
 */
uint32_t plcn_read_state(uint64_t number, uint8_t *state);

/**
 * Reads a number as a state command.
 *
 * Parameters:
 *   number   the number
 *   command  gets the command, enum plcn_command
 *
 * Refusals, in order:
 *   PLCN_REFUSED_UNKNOWN_NUMBER  no state command has the number
 *
 * Rules: DS 301, Appendix 3.7; RULES 4.8.
 *
 * Example:
 *   uint8_t command;
 *   if (plcn_read_command(0x62, &command) == PLCN_REFUSED_UNKNOWN_NUMBER)
 *       puts("0x62 is no state command");
 */
uint32_t plcn_read_command(uint64_t number, uint8_t *command);

/**
 * Reads an error code as a kind of error.
 *
 * Parameters:
 *   code  the code
 *   kind  gets the kind, enum plcn_error_kind
 *
 * Refusals, in order:
 *   PLCN_REFUSED_NO_SINGLE_KIND  no kind has the code, or several have it, as 0x8000
 *
 * Rules: DS 301, Appendix 3.9; RULES 6.7.
 *
 * Example:
 *   uint8_t kind;
 *   if (plcn_read_code(0x8245, &kind) == PLCN_OK && kind == PLCN_KIND_LOSS_OF_SOC)
 *       puts("an SoC was lost");
 */
uint32_t plcn_read_code(uint64_t code, uint8_t *kind);

/**
 * Tells the version of the archive.
 *
 * It answers PLCN_VERSION of the header that belongs to it, and refuses nothing.
 *
 * Refusals: none.
 *
 * Rules: our own.
 *
 * Example:
 *   if (plcn_version() != PLCN_VERSION)
 *       puts("header and archive are of two versions");
 */
uint32_t plcn_version(void);

/**
 * Tells why a call is refused.
 *
 * It is a sentence without a full stop; empty where number is no refusal.
 *
 * The text is ASCII with a 0 behind it. In C11, C++ and later the expression
 * plcn_refusal_text(..).text lasts to the end of its full expression; in C99 the answer has to be
 * kept in an object first, as in the example.
 *
 * Parameters:
 *   number  the number of the refusal, enum plcn_refusal
 *
 * Refusals: none.
 *
 * Rules: our own; RULES 2.
 *
 * Example:
 *   struct plcn_text why = plcn_refusal_text(plcn_withdraw(&head));
 *   if (why.text[0] != 0)
 *       puts(why.text);
 */
struct plcn_text plcn_refusal_text(uint32_t number);

/**
 * Tells the name of an NMT state.
 *
 * It is a word, as "PreOperational2"; empty where number is none of enum plcn_state.
 *
 * The text is ASCII with a 0 behind it. In C11, C++ and later the expression
 * plcn_state_name(..).text lasts to the end of its full expression; in C99 the answer has to be
 * kept in an object first, as in the example.
 *
 * Parameters:
 *   number  the number, enum plcn_state
 *
 * Refusals: none.
 *
 * Rules: DS 301, Section 7.1; RULES 4.8.
 *
 * Example:
 *   struct plcn_text name = plcn_state_name(PLCN_STATE_PRE_OPERATIONAL_2);
 *   puts(name.text);
 */
struct plcn_text plcn_state_name(uint32_t number);

/**
 * Tells the name of an NMT event.
 *
 * It is a word, as "SocReceived"; empty where number is none of enum plcn_event.
 *
 * The text is ASCII with a 0 behind it. In C11, C++ and later the expression
 * plcn_event_name(..).text lasts to the end of its full expression; in C99 the answer has to be
 * kept in an object first, as in the example.
 *
 * Parameters:
 *   number  the number, enum plcn_event
 *
 * Refusals: none.
 *
 * Rules: our own; RULES 4.9.
 *
 * Example:
 *   struct plcn_text name = plcn_event_name(PLCN_EVENT_SOC_RECEIVED);
 *   puts(name.text);
 */
struct plcn_text plcn_event_name(uint32_t number);

/**
 * Tells the name of a state command.
 *
 * It is a word, as "StopNode"; empty where number is none of enum plcn_command.
 *
 * The text is ASCII with a 0 behind it. In C11, C++ and later the expression
 * plcn_command_name(..).text lasts to the end of its full expression; in C99 the answer has to be
 * kept in an object first, as in the example.
 *
 * Parameters:
 *   number  the number, enum plcn_command
 *
 * Refusals: none.
 *
 * Rules: DS 301, Appendix 3.7; RULES 4.8.
 *
 * Example:
 *   struct plcn_text name = plcn_command_name(PLCN_COMMAND_STOP_NODE);
 *   puts(name.text);
 */
struct plcn_text plcn_command_name(uint32_t number);

/**
 * Tells the name of a DLL event.
 *
 * It is a word, as "SocTimeout"; empty where number is none of enum plcn_dll_event.
 *
 * The text is ASCII with a 0 behind it. In C11, C++ and later the expression
 * plcn_dll_event_name(..).text lasts to the end of its full expression; in C99 the answer has to be
 * kept in an object first, as in the example.
 *
 * Parameters:
 *   number  the number, enum plcn_dll_event
 *
 * Refusals: none.
 *
 * Rules: our own; RULES 5.4.
 *
 * Example:
 *   struct plcn_text name = plcn_dll_event_name(PLCN_DLL_EVENT_SOC_TIMEOUT);
 *   puts(name.text);
 */
struct plcn_text plcn_dll_event_name(uint32_t number);

/**
 * Tells the name of a kind of error.
 *
 * It is a word, as "LossOfSoc"; empty where number is none of enum plcn_error_kind.
 *
 * The text is ASCII with a 0 behind it. In C11, C++ and later the expression
 * plcn_kind_name(..).text lasts to the end of its full expression; in C99 the answer has to be kept
 * in an object first, as in the example.
 *
 * Parameters:
 *   number  the number, enum plcn_error_kind
 *
 * Refusals: none.
 *
 * Rules: our own; RULES 6.8.
 *
 * Example:
 *   struct plcn_text name = plcn_kind_name(PLCN_KIND_LOSS_OF_SOC);
 *   puts(name.text);
 */
struct plcn_text plcn_kind_name(uint32_t number);

#ifdef __cplusplus
}
#endif

#endif
