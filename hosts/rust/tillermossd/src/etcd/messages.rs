//! The messages of etcd's gRPC interface, as far as this server asks and reads them: a field that isn't named here is passed over.
//! Their numbers are those of etcd's own description of it, rpc.proto.

use prost::{Message, Oneof};

/// What is asked, by which method, and what is answered to it.
pub trait MethodCall: Message {
    /// Its answer; of a stream each of them.
    type Answer: Message + Default;
    /// The service and the method.
    const METHOD: &'static str;
}

macro_rules! questions {
    ($($question:ty => $answer:ty, $method:literal;)*) => {
        $(impl MethodCall for $question {
            type Answer = $answer;
            const METHOD: &'static str = $method;
        })*
    };
}

questions! {
    Range => RangeAnswer, "etcdserverpb.KV/Range";
    Transaction => TransactionAnswer, "etcdserverpb.KV/Txn";
    Compaction => HeaderAlone, "etcdserverpb.KV/Compact";
    WatchOfKeys => Watched, "etcdserverpb.Watch/Watch";
    LeaseGrant => Granted, "etcdserverpb.Lease/LeaseGrant";
    KeepAlive => KeptAlive, "etcdserverpb.Lease/LeaseKeepAlive";
    Revoke => HeaderAlone, "etcdserverpb.Lease/LeaseRevoke";
    AlarmsWanted => Alarms, "etcdserverpb.Maintenance/Alarm";
    Authenticate => UserToken, "etcdserverpb.Auth/Authenticate";
}

/// What each answer has in common.
#[derive(Clone, PartialEq, Message)]
pub struct Header {
    /// The revision of all that stands there.
    #[prost(int64, tag = "3")]
    pub revision: i64,
    /// The term of the leader.
    #[prost(uint64, tag = "4")]
    pub term: u64,
}

/// An answer of which nothing else is read.
#[derive(Clone, PartialEq, Message)]
pub struct HeaderAlone {
    /// What it has in common with the others.
    #[prost(message, optional, tag = "1")]
    pub header: Option<Header>,
}

/// A key, its value, and the revisions that made it and changed it last.
#[derive(Clone, PartialEq, Message)]
pub struct KeyValue {
    /// The key.
    #[prost(bytes = "vec", tag = "1")]
    pub key: Vec<u8>,
    /// Which revision made it.
    #[prost(int64, tag = "2")]
    pub created: i64,
    /// Which one changed it last.
    #[prost(int64, tag = "3")]
    pub changed: i64,
    /// The value.
    #[prost(bytes = "vec", tag = "5")]
    pub value: Vec<u8>,
    /// The lease that it goes with; 0 where it stays.
    #[prost(int64, tag = "6")]
    pub lease: i64,
}

/// Asks for the pairs of one key, or of all from a key on and before another.
#[derive(Clone, PartialEq, Message)]
pub struct Range {
    /// The key, or the first.
    #[prost(bytes = "vec", tag = "1")]
    pub key: Vec<u8>,
    /// The key after the last; empty for one key alone.
    #[prost(bytes = "vec", tag = "2")]
    pub end: Vec<u8>,
    /// How many at most; 0: all.
    #[prost(int64, tag = "3")]
    pub limit: i64,
    /// As they stood at this revision; 0: now.
    #[prost(int64, tag = "4")]
    pub revision: i64,
    /// Only how many there are.
    #[prost(bool, tag = "9")]
    pub counts: bool,
}

/// These pairs.
#[derive(Clone, PartialEq, Message)]
pub struct RangeAnswer {
    /// What it has in common with the others.
    #[prost(message, optional, tag = "1")]
    pub header: Option<Header>,
    /// The pairs, by their keys.
    #[prost(message, repeated, tag = "2")]
    pub pairs: Vec<KeyValue>,
}

/// A key gets a value.
#[derive(Clone, PartialEq, Message)]
pub struct PutPair {
    /// The key.
    #[prost(bytes = "vec", tag = "1")]
    pub key: Vec<u8>,
    /// Its value.
    #[prost(bytes = "vec", tag = "2")]
    pub value: Vec<u8>,
    /// The lease that it goes with; 0: it stays.
    #[prost(int64, tag = "3")]
    pub lease: i64,
}

/// A key goes, or all from a key on and before another.
#[derive(Clone, PartialEq, Message)]
pub struct DeleteRange {
    /// The key, or the first.
    #[prost(bytes = "vec", tag = "1")]
    pub key: Vec<u8>,
    /// The key after the last; empty for one key alone.
    #[prost(bytes = "vec", tag = "2")]
    pub end: Vec<u8>,
}

/// One deed of a transaction.
#[derive(Clone, PartialEq, Message)]
pub struct TransactionDeed {
    /// Which one.
    #[prost(oneof = "DeedKind", tags = "2, 3, 4")]
    pub kind: Option<DeedKind>,
}

/// What a deed does.
#[derive(Clone, PartialEq, Oneof)]
pub enum DeedKind {
    /// A key gets a value.
    #[prost(message, tag = "2")]
    Put(PutPair),
    /// Keys go.
    #[prost(message, tag = "3")]
    Delete(DeleteRange),
    /// A transaction within this one.
    #[prost(message, tag = "4")]
    Transaction(Transaction),
}

/// A condition of a transaction: that something of a key is what it says. (That the two are equal is etcd's first way to compare.)
#[derive(Clone, PartialEq, Message)]
pub struct TransactionCondition {
    /// What is compared: `CREATED` or `CHANGED`.
    #[prost(int32, tag = "2")]
    pub target: i32,
    /// Of this key.
    #[prost(bytes = "vec", tag = "3")]
    pub key: Vec<u8>,
    /// With what.
    #[prost(oneof = "ConditionWanted", tags = "5, 6")]
    pub wanted: Option<ConditionWanted>,
}

/// TransactionCondition::target of the revision that made a key, and of the one that changed it last.
pub const CREATED: i32 = 1;
pub const CHANGED: i32 = 2;

/// What a condition wants.
#[derive(Clone, PartialEq, Oneof)]
pub enum ConditionWanted {
    /// That this revision made it; 0: that it isn't there.
    #[prost(int64, tag = "5")]
    Created(i64),
    /// That this one changed it last.
    #[prost(int64, tag = "6")]
    Changed(i64),
}

/// All deeds or none, where all conditions hold.
#[derive(Clone, PartialEq, Message)]
pub struct Transaction {
    /// The conditions.
    #[prost(message, repeated, tag = "1")]
    pub conditions: Vec<TransactionCondition>,
    /// The deeds.
    #[prost(message, repeated, tag = "2")]
    pub deeds: Vec<TransactionDeed>,
}

/// What became of it.
#[derive(Clone, PartialEq, Message)]
pub struct TransactionAnswer {
    /// What it has in common with the others.
    #[prost(message, optional, tag = "1")]
    pub header: Option<Header>,
    /// Whether the conditions held.
    #[prost(bool, tag = "2")]
    pub has_succeeded: bool,
}

/// What stood before a revision is forgotten.
#[derive(Clone, PartialEq, Message)]
pub struct Compaction {
    /// This one.
    #[prost(int64, tag = "1")]
    pub revision: i64,
}

/// Begins to tell of changes.
#[derive(Clone, PartialEq, Message)]
pub struct WatchOfKeys {
    /// Of what.
    #[prost(message, optional, tag = "1")]
    pub wanted: Option<WatchWanted>,
}

/// Of which keys changes are told.
#[derive(Clone, PartialEq, Message)]
pub struct WatchWanted {
    /// The key, or the first.
    #[prost(bytes = "vec", tag = "1")]
    pub key: Vec<u8>,
    /// The key after the last; empty for one key alone.
    #[prost(bytes = "vec", tag = "2")]
    pub end: Vec<u8>,
    /// From this revision on.
    #[prost(int64, tag = "3")]
    pub from: i64,
}

/// Some changes, of one revision.
#[derive(Clone, PartialEq, Message)]
pub struct Watched {
    /// What it has in common with the others.
    #[prost(message, optional, tag = "1")]
    pub header: Option<Header>,
    /// Whether nothing more is told.
    #[prost(bool, tag = "4")]
    pub is_cancelled: bool,
    /// The changes.
    #[prost(message, repeated, tag = "11")]
    pub events: Vec<WatchedChange>,
}

/// One change.
#[derive(Clone, PartialEq, Message)]
pub struct WatchedChange {
    /// `GONE`, or another where a value was put.
    #[prost(int32, tag = "1")]
    pub kind: i32,
    /// The pair as it stands then; of one that is gone its key alone.
    #[prost(message, optional, tag = "2")]
    pub pair: Option<KeyValue>,
}

/// WatchedChange::kind of a key that is gone.
pub const GONE: i32 = 1;

/// A lease of so many seconds is wanted.
#[derive(Clone, PartialEq, Message)]
pub struct LeaseGrant {
    /// How many.
    #[prost(int64, tag = "1")]
    pub seconds: i64,
}

/// A lease.
#[derive(Clone, PartialEq, Message)]
pub struct Granted {
    /// Its number.
    #[prost(int64, tag = "2")]
    pub lease: i64,
    /// How many seconds it lasts.
    #[prost(int64, tag = "3")]
    pub seconds: i64,
}

/// A lease is kept alive.
#[derive(Clone, PartialEq, Message)]
pub struct KeepAlive {
    /// Which one.
    #[prost(int64, tag = "1")]
    pub lease: i64,
}

/// How long it lasts from then on.
#[derive(Clone, PartialEq, Message)]
pub struct KeptAlive {
    /// What it has in common with the others.
    #[prost(message, optional, tag = "1")]
    pub header: Option<Header>,
    /// How many seconds; 0 of a lease that isn't there.
    #[prost(int64, tag = "3")]
    pub seconds: i64,
}

/// A lease goes, and what was lent by it.
#[derive(Clone, PartialEq, Message)]
pub struct Revoke {
    /// Which one.
    #[prost(int64, tag = "1")]
    pub lease: i64,
}

/// Asks which alarms there are.
#[derive(Clone, PartialEq, Message)]
pub struct AlarmsWanted {}

/// These.
#[derive(Clone, PartialEq, Message)]
pub struct Alarms {
    /// One of a member each.
    #[prost(message, repeated, tag = "2")]
    pub alarms: Vec<Alarm>,
}

/// An alarm of a member.
#[derive(Clone, PartialEq, Message)]
pub struct Alarm {
    /// `NO_ROOM`, or another.
    #[prost(int32, tag = "2")]
    pub kind: i32,
}

/// Alarm::kind where there is no room left.
pub const NO_ROOM: i32 = 1;

/// Who asks.
#[derive(Clone, PartialEq, Message)]
pub struct Authenticate {
    /// The user.
    #[prost(string, tag = "1")]
    pub name: String,
    /// His password.
    #[prost(string, tag = "2")]
    pub password: String,
}

/// By what the members know a user.
#[derive(Clone, PartialEq, Message)]
pub struct UserToken {
    /// It goes with each question from then on.
    #[prost(string, tag = "2")]
    pub token: String,
}
