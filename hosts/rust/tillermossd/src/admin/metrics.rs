//! What is counted, as Prometheus reads it.

use crate::admin::processes::Used;
use crate::etcd::Rows;
use crate::etcd::mastership::Mastership;
use host_wire::{Printed, refusal_name};
use prometheus::{
    Counter, Gauge, Histogram, IntCounter, IntCounterVec, IntGauge, IntGaugeVec, Registry, TextEncoder, histogram_opts, opts,
    register_counter_with_registry, register_gauge_with_registry, register_histogram_with_registry, register_int_counter_vec_with_registry,
    register_int_counter_with_registry, register_int_gauge_vec_with_registry, register_int_gauge_with_registry,
};
use std::sync::{Arc, OnceLock};
use std::time::Duration;

/// The bounds of times, in seconds.
const BOUNDS: [f64; 11] = [0.0001, 0.0003, 0.001, 0.003, 0.01, 0.03, 0.1, 0.3, 1.0, 3.0, 10.0];

/// The refusal by a limit of the cell.
const NO_ROOM: u32 = 43;

/// The counters, each named `tillermoss_` and as it is named here.
#[derive(Debug)]
pub struct Metrics {
    registry: Registry,
    frames: IntCounterVec,
    frame_seconds: Histogram,
    commits: IntCounter,
    commit_seconds: Histogram,
    events: IntCounterVec,
    refusals: IntCounterVec,
    recoveries: IntCounter,
    replaced: IntCounter,
    turned_away: IntCounterVec,
    cut: IntCounterVec,
    limited: IntCounter,
    slowed: IntCounter,
    starts_let_go: IntCounter,
    changes_kept: IntCounter,
    connections: IntGaugeVec,
    most_connections: IntGauge,
    nodes: IntGauge,
    content_bytes: IntGauge,
    sessions: IntGauge,
    rights: IntGauge,
    locks: IntGauge,
    changes: IntGauge,
    epoch: IntGauge,
    oldest: Gauge,
    is_ready: IntGauge,
    is_recovering: IntGauge,
    store_bytes: IntGauge,
    master_memory: IntGauge,
    master_seconds: Counter,
    processes: Processes,
    mastership: OnceLock<(Arc<Mastership>, Gauge)>,
}

/// The server's own process, by the names that each program has.
#[derive(Debug)]
struct Processes {
    registry: Registry,
    memory: IntGauge,
    seconds: Counter,
    files: IntGauge,
    most_files: IntGauge,
    started: Gauge,
}

impl Processes {
    fn new() -> prometheus::Result<Processes> {
        let r = Registry::new();
        Ok(Processes {
            memory: register_int_gauge_with_registry!("process_resident_memory_bytes", "Memory of the server.", r)?,
            seconds: register_counter_with_registry!("process_cpu_seconds_total", "Processor time of the server.", r)?,
            files: register_int_gauge_with_registry!("process_open_fds", "Descriptors that the server has open.", r)?,
            most_files: register_int_gauge_with_registry!("process_max_fds", "Descriptors that the server may have open.", r)?,
            started: register_gauge_with_registry!("process_start_time_seconds", "When the server began, since 1970.", r)?,
            registry: r,
        })
    }
}

/// What is measured when somebody looks.
#[derive(Clone, Copy, Debug, Default)]
pub struct Levels {
    pub greeting: usize,
    pub bound: usize,
    /// Of the bound ones so many are let in, and so many descriptors may be open.
    pub most: usize,
    pub descriptors: u64,
    pub nodes: usize,
    pub bytes: u64,
    pub sessions: usize,
    pub rights: usize,
    pub locks: usize,
    pub changes: usize,
    pub oldest: Duration,
    pub epoch: u64,
    pub is_ready: bool,
    pub is_recovering: bool,
    /// The store's file and its log; None where the rows stand in etcd.
    pub store_bytes: Option<u64>,
    /// What the server uses, and what its master does.
    pub own: Used,
    pub master: Used,
}

impl Metrics {
    /// All at nothing. The names are fixed and each is told once, so it doesn't fail.
    pub fn new() -> prometheus::Result<Metrics> {
        let r = Registry::new_custom(Some("tillermoss".to_owned()), None)?;
        let seconds = |name: &str, help: &str| histogram_opts!(name, help, BOUNDS.to_vec());
        let by = |name: &str, help: &str| opts!(name, help);
        let level = |name: &str, help: &str| register_int_gauge_with_registry!(by(name, help), r);
        Ok(Metrics {
            frames: register_int_counter_vec_with_registry!(by("frames_total", "Frames sent to the master."), &["kind"], r)?,
            frame_seconds: register_histogram_with_registry!(seconds("frame_seconds", "From a frame to its last answer."), r)?,
            commits: register_int_counter_with_registry!(by("commits_total", "Frames in which the store was written."), r)?,
            commit_seconds: register_histogram_with_registry!(seconds("commit_seconds", "The same of those that wrote the store."), r)?,
            events: register_int_counter_vec_with_registry!(by("events_total", "What the master told."), &["event"], r)?,
            refusals: register_int_counter_vec_with_registry!(
                by("refusals_total", "Refusals, by number and name."),
                &["number", "refusal"],
                r
            )?,
            recoveries: register_int_counter_with_registry!(by("recoveries_total", "Recoveries that ended."), r)?,
            replaced: register_int_counter_with_registry!(by("masters_replaced_total", "Masters that were replaced."), r)?,
            turned_away: register_int_counter_vec_with_registry!(by("turned_away_total", "Greetings refused."), &["reason"], r)?,
            cut: register_int_counter_vec_with_registry!(by("connections_cut_total", "Connections cut off."), &["reason"], r)?,
            limited: register_int_counter_with_registry!(by("calls_limited_total", "Calls that a limit refused."), r)?,
            slowed: register_int_counter_with_registry!(by("messages_slowed_total", "Messages that came too fast."), r)?,
            starts_let_go: register_int_counter_with_registry!(by("starts_let_go_total", "Starts of sessions that had begun often."), r)?,
            changes_kept: register_int_counter_with_registry!(by("changes_kept_total", "Changes beyond their principal's share."), r)?,
            connections: register_int_gauge_vec_with_registry!(by("connections", "Connections."), &["state"], r)?,
            most_connections: level("connections_limit", "Connections that may have greeted.")?,
            nodes: level("nodes", "Nodes of the cell.")?,
            content_bytes: level("content_bytes", "Bytes of all contents.")?,
            sessions: level("sessions", "Sessions that live.")?,
            rights: level("rights", "Rights to cache a name that are held.")?,
            locks: level("locks", "Locks that aren't free.")?,
            changes: level("changes_waiting", "Changes that wait.")?,
            epoch: level("epoch", "The master's epoch.")?,
            oldest: register_gauge_with_registry!(by("oldest_change_seconds", "How long the oldest change has waited."), r)?,
            is_ready: level("ready", "1 where a master is up and has recovered.")?,
            is_recovering: level("recovering", "1 where a master is up and waits for the clients of before.")?,
            store_bytes: level("store_bytes", "Bytes of the store's file and its log; 0 over etcd.")?,
            master_memory: level("master_resident_memory_bytes", "Memory of the master.")?,
            master_seconds: register_counter_with_registry!(by("master_cpu_seconds_total", "Processor time of the master."), r)?,
            processes: Processes::new()?,
            registry: r,
            mastership: OnceLock::new(),
        })
    }

    /// Which program this is, and whether its master was built without proof.
    pub fn tell_build(&self, is_unproved: bool) -> prometheus::Result<()> {
        let build = register_int_gauge_vec_with_registry!(opts!("build_info", "The build."), &["version", "proof"], self.registry)?;
        build.with_label_values(&[env!("CARGO_PKG_VERSION"), if is_unproved { "without" } else { "proved" }]).set(1);
        Ok(())
    }

    /// Those of etcd too, and how long the mastership lasts still.
    pub fn watch(&self, rows: &Rows) -> prometheus::Result<()> {
        let health = rows.gateway.health();
        self.registry.register(Box::new(health.seconds.clone()))?;
        self.registry.register(Box::new(health.failures.clone()))?;
        self.registry.register(Box::new(health.has_no_room.clone()))?;
        let help = "For how long this server is still master, where it can't renew that.";
        let rest = register_gauge_with_registry!(opts!("mastership_seconds", help), self.registry)?;
        self.mastership.get_or_init(|| (rows.mastership.clone(), rest));
        Ok(())
    }

    /// A frame goes to the master.
    pub fn sent(&self, is_message: bool) {
        self.frames.with_label_values(&[if is_message { "message" } else { "tick" }]).inc();
    }

    /// A frame was answered.
    pub fn answered(&self, took: Duration, has_committed: bool) {
        self.frame_seconds.observe(took.as_secs_f64());
        if has_committed {
            self.commits.inc();
            self.commit_seconds.observe(took.as_secs_f64());
        }
    }

    /// What the master printed.
    pub fn follow(&self, printed: &Printed<'_>) {
        match printed {
            Printed::Recovered => self.recoveries.inc(),
            Printed::Refused(number) => self.refused(*number),
            _ => {}
        }
        if let Some(event) = printed.event() {
            self.events.with_label_values(&[event]).inc();
        }
    }

    /// A call or a message was refused, by this number.
    pub fn refused(&self, number: u32) {
        if number == NO_ROOM {
            self.limited();
        }
        self.refusals.with_label_values(&[&number.to_string(), refusal_name(number)]).inc();
    }

    /// A greeting came to nothing.
    pub fn turned_away(&self, reason: &str) {
        self.turned_away.with_label_values(&[reason]).inc();
    }

    /// A connection was cut off.
    pub fn cut(&self, reason: &str) {
        self.cut.with_label_values(&[reason]).inc();
    }

    /// A limit of the server refused a call.
    pub fn limited(&self) {
        self.limited.inc();
    }

    /// A message had to wait.
    pub fn slowed(&self) {
        self.slowed.inc();
    }

    /// A Start was let go.
    pub fn let_go(&self) {
        self.starts_let_go.inc();
    }

    /// A change was kept, because its principal has its whole share at the master.
    pub fn kept(&self) {
        self.changes_kept.inc();
    }

    /// A master was replaced.
    pub fn replaced(&self) {
        self.replaced.inc();
    }

    /// All of them, with the present levels.
    pub fn text(&self, levels: &Levels) -> prometheus::Result<String> {
        self.connections.with_label_values(&["greeting"]).set(levels.greeting as i64);
        self.connections.with_label_values(&["bound"]).set(levels.bound as i64);
        let counts = [
            (&self.nodes, levels.nodes as u64),
            (&self.content_bytes, levels.bytes),
            (&self.sessions, levels.sessions as u64),
            (&self.rights, levels.rights as u64),
            (&self.locks, levels.locks as u64),
            (&self.changes, levels.changes as u64),
            (&self.epoch, levels.epoch),
            (&self.is_ready, levels.is_ready.into()),
            (&self.is_recovering, levels.is_recovering.into()),
            (&self.store_bytes, levels.store_bytes.unwrap_or(0)),
            (&self.master_memory, levels.master.memory),
            (&self.processes.memory, levels.own.memory),
            (&self.processes.files, levels.own.files),
            (&self.processes.most_files, levels.descriptors),
            (&self.most_connections, levels.most as u64),
        ];
        for (gauge, value) in counts {
            gauge.set(value.cast_signed());
        }
        self.oldest.set(levels.oldest.as_secs_f64());
        if let Some((mastership, rest)) = self.mastership.get() {
            rest.set(mastership.rest().as_secs_f64());
        }
        // (the kernel counts them)
        for (counter, value) in [(&self.master_seconds, levels.master.seconds), (&self.processes.seconds, levels.own.seconds)] {
            counter.reset();
            counter.inc_by(value);
        }
        self.processes.started.set(levels.own.started);
        let mut families = self.registry.gather();
        families.extend(self.processes.registry.gather());
        TextEncoder::new().encode_to_string(&families)
    }
}

#[cfg(test)]
mod tests {
    use super::*;

    #[test]
    fn what_was_counted_is_told() {
        let metrics = Metrics::new().unwrap();
        metrics.sent(true);
        metrics.answered(Duration::from_millis(2), true);
        metrics.answered(Duration::from_millis(2), false);
        metrics.refused(10);
        metrics.refused(NO_ROOM);
        metrics.limited();
        let text = metrics.text(&Levels { sessions: 3, ..Levels::default() }).unwrap();
        let wanted = [
            "frames_total{kind=\"message\"} 1",
            "frame_seconds_count 2",
            "commits_total 1",
            "refusals_total{number=\"10\",refusal=\"Denied\"} 1",
            "refusals_total{number=\"43\",refusal=\"NoRoom\"} 1",
            "calls_limited_total 2",
        ];
        for line in wanted.into_iter().chain(["sessions 3", "commit_seconds_bucket{le=\"0.003\"} 1"]) {
            assert!(text.contains(&format!("\ntillermoss_{line}\n")), "{line} in {text}");
        }
    }
}
