//! The numbers of the causes (docs/RULES.md, 8.1, 9.2, 11, 12, 14.2 and 15.4).

pub const NONE: u64 = 0;
pub const STORE_LENGTH: u64 = 1;
pub const UNSOUND: u64 = 2;
pub const CODE: u64 = 3;
pub const NUMBER: u64 = 4;
pub const NOT_LIVE: u64 = 5;
/// A start where no number is free.
pub const NO_NUMBER: u64 = 6;
pub const ACCOUNT: u64 = 7;
pub const CARD_LENGTH: u64 = 8;
pub const CHILD_LIVE: u64 = 9;
/// Of a day file, a list of events or a list of charges.
pub const LENGTH: u64 = 10;
/// A day file's count, or the bytes of a list of charges, above the limit.
pub const COUNT: u64 = 11;
/// A day file's opening accounts.
pub const OPENING: u64 = 12;
/// An add or a charge to an account that is no charge account, or a write to one that is.
pub const KIND_OF_ACCOUNT: u64 = 13;
/// An add or a charge that is too large, either way.
pub const AMOUNT: u64 = 14;
/// A sum that is no amount.
pub const SUM: u64 = 15;
/// Of an action that waits in a queue.
pub const QUEUED: u64 = 16;
/// A judge of an action that is not in its queue, or that is ready.
pub const NOTHING_TO_JUDGE: u64 = 17;
/// A commit while the queue of the action's kind is not empty.
pub const QUEUE_FIRST: u64 = 18;
/// A commit or an enter where the counter and the queue of the action's kind have come to the most.
pub const COUNTED_OUT: u64 = 19;
/// An opening, or a short day, under what is no rule.
pub const NO_RULE: u64 = 20;
/// An enter or a judge of a table under rule 2.
pub const NO_QUEUES: u64 = 21;
/// A short day of more events than any has.
pub const TOO_MANY_EVENTS: u64 = 25;

/// Those of an event, in the order in which they are asked.
pub const OF_EVENTS: [u64; 17] = [
    STORE_LENGTH,
    UNSOUND,
    CODE,
    NO_QUEUES,
    NUMBER,
    NOT_LIVE,
    NO_NUMBER,
    ACCOUNT,
    CARD_LENGTH,
    KIND_OF_ACCOUNT,
    AMOUNT,
    CHILD_LIVE,
    QUEUED,
    NOTHING_TO_JUDGE,
    QUEUE_FIRST,
    COUNTED_OUT,
    SUM,
];
