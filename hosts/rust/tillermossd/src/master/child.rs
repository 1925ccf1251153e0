//! The master, a child of this program, and the task that speaks with it.

use crate::etcd::Rows;
use crate::etcd::pipes::MasterPipes;
use crate::master::clock::{Clock, Probe};
use crate::master::lines::Message;
use crate::master::program::Program;
use crate::master::pulse::Pulse;
use crate::master::starts::Starts;
use crate::master::store::{self, Identity};
use crate::net::connections::Hall;
use crate::net::outgoing::Outbox;
use crate::serving::Reading;
use crate::settings::Settings;
use anyhow::{Context, Result, bail};
use host_wire::{ANSWER_LIMIT, Blocks, Frame, Heard, MasterAnswer, Printed, Said, Text, Told};
use std::collections::VecDeque;
use std::error::Error;
use std::fmt::{self, Display, Formatter};
use std::future::pending;
use std::io;
use std::mem;
use std::os::unix::process::CommandExt;
use std::path::{Path, PathBuf};
use std::process::{ExitStatus, Stdio};
use std::sync::Arc;
use std::time::{Duration, Instant};
use tempfile::TempDir;
use tokio::io::AsyncWriteExt;
use tokio::process::{Child, ChildStdin, ChildStdout, Command};
use tokio::sync::{mpsc, oneshot};
use tokio::task::spawn_blocking;
use tokio::time::{sleep, timeout};
use tracing::{debug, error, info, trace, warn};

/// How many frames are at the master at once, of so many bytes: those that wait there together it does as a group, which is one commit.
const AT_ONCE: usize = 256;
const BYTES_AT_ONCE: usize = 1 << 20;

/// So many are there where the last one that it answered left something to do, as where thousands of Beats are due because of one change:
/// each does as much as one may, and what comes waits for all that were sent before.
const AT_ONCE_WITH_MORE: usize = 2;

/// How long a master has one frame at a time after one that the store refused: of a group it refuses all, and the master is gone; one
/// that is alone it refuses alone, and Beats are answered.
const ALONE: Duration = Duration::from_secs(60);

/// So too while the store's file system has no more room than so many bytes. A group changes less.
const GROUP_ROOM: u64 = 16 << 20;

/// What a master ends with where the store refused what a group of frames changed.
const GROUP_REFUSED: i32 = 3;

/// How long a master may take for a frame.
const PATIENCE: Duration = Duration::from_secs(10);

/// How often it is looked whether the mastership lasts, where nothing comes.
const LOOKING: Duration = Duration::from_millis(500);

/// How long it may take to come up: it reads the whole store.
const COMING_UP: Duration = Duration::from_secs(600);

/// What is asked of the task.
#[derive(Debug)]
pub enum Order {
    /// The master is to go.
    Down,
    /// A copy of the store, between two frames.
    Copy(oneshot::Sender<io::Result<TempDir>>),
}

/// Why a master serves no more.
#[derive(Debug)]
pub enum MasterEnd {
    /// It was told to go, and went so.
    Asked(ExitStatus),
    /// It is gone by itself, or doesn't answer.
    Gone(String),
    /// It is gone, because the store refused what a group of frames changed. Nobody was told of that group.
    Refused(String),
    /// The store isn't the same file any more.
    StoreGone(String),
}

/// What a master over etcd commits as one change: etcd takes 1.5 MiB, in which a content that is no text takes two bytes for each of its
/// own, and an edit is at most three operations.
const GROUP_WORDS: [&str; 4] = ["--group-edits", "3000", "--group-bytes", "700000"];

/// How a master is started.
#[derive(Clone, Debug)]
pub struct Making {
    /// The program.
    pub program: Program,
    /// The file of the store, where the rows stand in one.
    pub store: PathBuf,
    /// The rows in etcd, where they stand there.
    pub rows: Option<Rows>,
    /// The settings of the cell.
    pub settings: Settings,
}

/// A frame that the master has.
#[derive(Debug)]
struct Sent {
    at: Instant,
    moment: u64,
    bytes: usize,
    client: Option<(u64, Arc<str>)>,
    has_committed: bool,
    is_refused: bool,
}

/// The stream to the master: frames that wait together are written together. It ends after the last one.
#[derive(Debug)]
struct Input {
    stream: Option<ChildStdin>,
    waiting: Vec<u8>,
    is_over: bool,
}

/// A master that is up. Its moments are milliseconds since it was started; they stand still while the machine sleeps and while the server
/// reads nothing, so that no session ends because nobody could be heard of.
#[derive(Debug)]
pub struct Master {
    hall: Arc<Hall>,
    child: Child,
    input: Input,
    output: ChildStdout,
    blocks: Blocks,
    woken: Vec<Arc<Outbox>>,
    starts: Starts,
    identity: Option<Identity>,
    rows: Option<(Rows, MasterPipes)>,
    clock: Clock,
    probe: Probe,
    has_sent: bool,
    pulse: Pulse,
    sent: VecDeque<Sent>,
    bytes_sent: usize,
    has_more: bool,
    alone_until: Option<Instant>,
    copying: Option<oneshot::Sender<io::Result<TempDir>>>,
}

// A master's program that is up.
struct Raised {
    child: Child,
    input: Input,
    output: ChildStdout,
    blocks: Blocks,
    begun: Instant,
    identity: Option<Identity>,
    next: Option<u64>,
}

// Opens a keeper. (If etcd has no room it is opened later.)
async fn keep(rows: Rows) -> Result<(Rows, MasterPipes)> {
    let gateway = rows.gateway.clone();
    match spawn_blocking(move || rows.keep().map(|kept| (rows, kept))).await? {
        Err(fault) if !gateway.health().has_room() => Err(StoreRefused(format!("{fault:#}")).into()),
        kept => kept,
    }
}

// After this nothing that a master which is gone has asked for is sent to etcd.
async fn end_keeper(rows: Option<(Rows, MasterPipes)>) {
    let ended = spawn_blocking(|| rows.into_iter().for_each(|(_, kept)| kept.end())).await;
    if let Err(fault) = ended {
        error!(reason = %fault, "the keeper of the rows wasn't ended");
    }
}

impl Making {
    /// Starts a master, and waits until it is up; meanwhile what the cell looks like is read, where nobody knows it yet. It may have one
    /// frame at a time for a while.
    pub async fn start(&self, hall: &Arc<Hall>, is_alone: bool, reading: Option<Reading>) -> Result<Master> {
        let rows = match self.rows.clone() {
            Some(rows) => Some(keep(rows).await?),
            None => None,
        };
        let raised = match self.raise(hall, rows.as_ref().map(|(_, kept)| kept.folder()), reading).await {
            Ok(raised) => raised,
            Err(fault) => {
                end_keeper(rows).await;
                return Err(fault);
            }
        };
        let Raised { child, input, output, blocks, begun, identity, next } = raised;
        Ok(Master {
            hall: hall.clone(),
            child,
            input,
            output,
            blocks,
            woken: Vec::new(),
            starts: Starts::default(),
            identity,
            rows,
            clock: Clock::new(begun),
            probe: Probe::new()?,
            has_sent: false,
            pulse: Pulse::new(0, next),
            sent: VecDeque::new(),
            bytes_sent: 0,
            has_more: false,
            alone_until: is_alone.then(|| begun + ALONE),
            copying: None,
        })
    }

    // Starts its program, over the pipes in a folder where the rows are kept by them. (It is gone where this fails.)
    async fn raise(&self, hall: &Arc<Hall>, pipes: Option<&Path>, reading: Option<Reading>) -> Result<Raised> {
        // (it is read before the first answer comes)
        let settings = self.settings.write(self.rows.is_some())?;
        let mut child = self.spawn(settings.path(), pipes)?;
        let (Some(stream), Some(mut output)) = (child.stdin.take(), child.stdout.take()) else {
            bail!("the master has no streams");
        };
        let mut input = Input { stream: Some(stream), waiting: Vec::new(), is_over: false };
        input.put(Frame::Up(0))?;
        input.write().await;
        let (begun, mut blocks) = (Instant::now(), Blocks::wide(ANSWER_LIMIT));
        if let Some(read) = reading {
            *hall.picture() = spawn_blocking(read).await??;
        }
        let coming = come_up(hall, &mut output, &mut blocks);
        let next = timeout(COMING_UP, coming).await.unwrap_or_else(|_| bail!("it took too long"));
        let next = next.context("the master didn't come up")?;
        let identity = if pipes.is_none() { Some(Identity::of(&self.store)?) } else { None };
        Ok(Raised { child, input, output, blocks, begun, identity, next })
    }

    // In a process group of its own, so that what is typed at a terminal doesn't end it before its server.
    fn spawn(&self, settings: &Path, pipes: Option<&Path>) -> Result<Child> {
        let mut command = self.program.command();
        match pipes {
            Some(folder) => command.arg("serve").arg("--rows").arg(folder).args(GROUP_WORDS),
            None => command.arg("serve").arg("--store").arg(&self.store),
        };
        command.arg("--settings").arg(settings);
        command.stdin(Stdio::piped()).stdout(Stdio::piped()).process_group(0);
        Command::from(command).kill_on_drop(true).spawn().with_context(|| format!("starting {}", self.program.path().display()))
    }
}

impl Input {
    // Puts a frame after what waits; how many bytes it has.
    fn put(&mut self, frame: Frame<'_>) -> Result<usize> {
        let bytes = frame.write().context("a message that is too long, or no memory")?;
        self.waiting.extend_from_slice(&bytes);
        Ok(bytes.len())
    }

    // Writes of what waits; where nothing does it waits for ever.
    async fn write(&mut self) {
        let Some(stream) = self.stream.as_mut().filter(|_| !self.waiting.is_empty()) else {
            return pending().await;
        };
        let written = stream.write(&self.waiting).await;
        self.waiting.drain(..written.as_ref().map_or(0, |count| *count));
        // (where the master is gone its reader tells it)
        if written.is_err() || (self.is_over && self.waiting.is_empty()) {
            self.stream = None;
        }
    }
}

// What a block of the master tells.
fn read(block: &[u8]) -> Result<Heard<'_>> {
    Heard::read(block).context("what the master tells isn't understood")
}

// The answer to the first frame.
async fn come_up(hall: &Hall, output: &mut ChildStdout, blocks: &mut Blocks) -> Result<Option<u64>> {
    let mut is_up = false;
    loop {
        let block = blocks.next_of(output).await?.context("it ended")?;
        match read(&block)?.told() {
            Told::End(next) if is_up => return Ok(next),
            Told::End(_) => bail!("it told nothing"),
            Told::Line(printed) => {
                let line = Text(&block);
                follow(hall, line, printed, None);
                match printed {
                    Printed::Up(_) => is_up = true,
                    Printed::Refused(_) if printed.is_store_refused() => return Err(StoreRefused(line.to_string()).into()),
                    Printed::Refused(_) => bail!("{line}"),
                    _ => {}
                }
            }
            Told::Message(..) | Told::Other => {}
            Told::Bad(reason) => bail!("it takes no frames: {reason}"),
        }
    }
}

/// The store refused a master's epoch, so that none came up. It may take one a little later.
#[derive(Debug)]
pub struct StoreRefused(String);

impl Display for StoreRefused {
    fn fmt(&self, out: &mut Formatter<'_>) -> fmt::Result {
        out.write_str(&self.0)
    }
}

impl Error for StoreRefused {}

// What a line tells is noted and, where an operator wants to know it, logged.
fn follow(hall: &Hall, line: Text<'_>, printed: Printed<'_>, from: Option<&(u64, Arc<str>)>) {
    trace!(target: "tillermossd::master", %line);
    let mut principal = from.map(|(_, principal)| principal.clone());
    let named = principal.as_deref();
    match printed {
        Printed::Up(epoch) => info!(%epoch, "a master is up"),
        Printed::Recovered => info!("the master has recovered"),
        Printed::Refused(_) => {
            debug!(client = from.map(|(client, _)| *client), principal = named, reason = %line, "a message or a sweep was refused");
        }
        Printed::Started(client) => {
            debug!(%client, principal = named, "a session started");
            // (it may begin later than its Start came, where the store refused meanwhile)
            principal = hall.routes.principal(client).or(principal);
        }
        Printed::Ended(client) => debug!(%client, principal = named, "a session ended"),
        _ => {}
    }
    hall.picture().follow(printed, principal.as_ref());
    hall.metrics.follow(&printed);
}

impl Master {
    /// The number of its process.
    pub fn process(&self) -> Option<u32> {
        self.child.id()
    }

    /// Carries messages until it serves no more. It is gone then.
    pub async fn run(mut self, orders: &mut mpsc::Receiver<Order>) -> MasterEnd {
        let ending = match self.serve(orders).await {
            Ok(ending) => ending,
            Err(error) => MasterEnd::Gone(format!("{error:#}")),
        };
        if matches!(ending, MasterEnd::Asked(_)) {
            end_keeper(self.rows.take()).await;
            return ending;
        }
        // (one that is gone can't be killed)
        let _ = self.child.start_kill();
        let status = self.child.wait().await;
        end_keeper(self.rows.take()).await;
        match (ending, status) {
            (MasterEnd::Gone(reason), Ok(status)) if status.code() == Some(GROUP_REFUSED) => MasterEnd::Refused(reason),
            (MasterEnd::Gone(reason), Ok(status)) => MasterEnd::Gone(format!("{reason}; {status}")),
            (ending, _) => ending,
        }
    }

    async fn serve(&mut self, orders: &mut mpsc::Receiver<Order>) -> Result<MasterEnd> {
        loop {
            self.check_mastership()?;
            self.check_room()?;
            if let Some(fault) = self.fill()? {
                return Ok(MasterEnd::StoreGone(fault));
            }
            let rest = self.rest();
            tokio::select! {
                biased;
                back = self.probe.is_back() => {
                    back?;
                    self.note_reading();
                }
                () = self.input.write() => {}
                came = self.blocks.fill_of(&mut self.output) => {
                    came?.then_some(()).context("it ended")?;
                    self.hear_all()?;
                }
                order = orders.recv() => match order {
                    Some(Order::Copy(reply)) => self.copying = Some(reply),
                    Some(Order::Down) | None => return self.stop().await,
                },
                () = self.hall.lines.filled(), if self.has_room() => {}
                () = sleep(LOOKING), if self.rows.is_some() => {}
                () = sleep(rest.unwrap_or(PATIENCE)), if rest.is_some() => {
                    if !self.sent.is_empty() && self.rest().is_some_and(|rest| rest.is_zero()) {
                        bail!("it doesn't answer");
                    }
                }
            }
            self.copy().await;
        }
    }

    fn has_room(&self) -> bool {
        let most = if self.has_more { AT_ONCE_WITH_MORE } else { AT_ONCE };
        self.copying.is_none() && (self.sent.is_empty() || (self.sent.len() < most && self.bytes_sent < BYTES_AT_ONCE))
    }

    fn is_alone(&self) -> bool {
        let is_short = || self.identity.as_ref().is_some_and(|store| store.is_short_of(GROUP_ROOM));
        let has_no_room = || self.rows.as_ref().is_some_and(|(rows, _)| !rows.gateway.health().has_room());
        self.alone_until.is_some_and(|until| Instant::now() < until) || is_short() || has_no_room()
    }

    // (the disk is looked at once for what is sent together, and only where there is a second frame)
    fn takes_one_more(&self, is_alone: &mut Option<bool>) -> bool {
        let mut is_alone = || *is_alone.get_or_insert_with(|| self.is_alone());
        self.has_room() && (self.sent.is_empty() || (self.hall.lines.has_some() && !is_alone()))
    }

    fn now(&mut self) -> u64 {
        self.clock.tell(Instant::now())
    }

    // What had come was read. It is handed on where the master took something since the last time, or would take it.
    fn note_reading(&mut self) {
        let is_handed_on = self.has_sent || self.has_room();
        self.clock.read(Instant::now(), is_handed_on);
        self.has_sent = false;
    }

    // How long there is nothing to do, where nobody comes. (A master isn't waited for while this server was stopped.)
    fn rest(&mut self) -> Option<Duration> {
        match self.sent.front() {
            Some(sent) => Some(PATIENCE.saturating_sub(self.clock.attended(sent.at, Instant::now()))),
            None => {
                let now = self.now();
                self.pulse.rest(now)
            }
        }
    }

    // Sends what there is to send, as far as there is room; why nothing more may be sent.
    fn fill(&mut self) -> Result<Option<String>> {
        let now = self.now();
        let is_due = self.sent.is_empty() && self.pulse.rest(now).is_some_and(|rest| rest.is_zero());
        if !self.has_room() || !(is_due || self.hall.lines.has_some()) {
            return Ok(None);
        }
        if let Some(fault) = self.identity.as_ref().and_then(Identity::fault) {
            return Ok(Some(fault));
        }
        let mut is_alone = None;
        while self.takes_one_more(&mut is_alone) {
            let message = self.hall.lines.take();
            if message.is_none() && !(is_due && self.sent.is_empty()) {
                break;
            }
            if message.as_ref().is_some_and(|message| self.is_one_too_many(message)) {
                continue;
            }
            self.send(message)?;
        }
        Ok(None)
    }

    // A Start of a client that has begun its session too often already: it is let go, as if it got lost.
    fn is_one_too_many(&self, message: &Message) -> bool {
        let is_too_many = message.is_start && self.starts.is_worn_out(message.client);
        if is_too_many {
            self.hall.metrics.let_go();
            debug!(client = message.client, principal = &*message.principal, "a Start of a session that has begun often was let go");
        }
        is_too_many
    }

    // (the clock is read after the arrival of a message)
    fn send(&mut self, message: Option<Message>) -> Result<()> {
        let moment = self.now();
        let frame = match &message {
            Some(message) => Frame::Message(moment, &message.bytes),
            None => Frame::Tick(moment),
        };
        let bytes = self.input.put(frame)?;
        self.bytes_sent += bytes;
        self.pulse.send(moment);
        self.has_sent = true;
        self.hall.metrics.sent(message.is_some());
        let client = message.map(|Message { client, principal, place, .. }| {
            drop(place);
            (client, principal)
        });
        self.sent.push_back(Sent { at: Instant::now(), moment, bytes, client, has_committed: false, is_refused: false });
        Ok(())
    }

    fn check_mastership(&self) -> Result<()> {
        self.rows.as_ref().map_or(Ok(()), |(rows, _)| rows.mastership.check())
    }

    // A master that etcd had no room for goes on without commits, and gives way once there is some.
    fn check_room(&self) -> Result<()> {
        match &self.rows {
            Some((rows, kept)) if kept.waits_for_room() && rows.gateway.health().has_room() => {
                bail!("etcd has room again for the next one")
            }
            _ => Ok(()),
        }
    }

    // All that was read of what the master tells; then each connection for which something came is woken once.
    fn hear_all(&mut self) -> Result<()> {
        let mut blocks = mem::replace(&mut self.blocks, Blocks::new(ANSWER_LIMIT));
        let heard = self.hear_each(&mut blocks);
        self.blocks = blocks;
        self.woken.drain(..).for_each(|outgoing| outgoing.wake());
        heard
    }

    fn hear_each(&mut self, blocks: &mut Blocks) -> Result<()> {
        while let Some(block) = blocks.take()? {
            self.hear(block)?;
        }
        Ok(())
    }

    // What the master tells. Of one whose mastership has ended nothing is passed on: what it told before was done before.
    fn hear(&mut self, block: &[u8]) -> Result<()> {
        self.check_mastership()?;
        match read(block)?.told() {
            Told::Message(client, said, message) => self.pass(client, said, message),
            Told::Line(printed) => self.note(Text(block), printed),
            Told::Bad(reason) => warn!(reason, "the master took no frame of what was sent"),
            Told::End(next) => return self.end(next),
            Told::Other => {}
        }
        Ok(())
    }

    // A line, of the frame whose turn it is.
    fn note(&mut self, line: Text<'_>, printed: Printed<'_>) {
        let (is_commit, is_refused) = (printed.is_commit(), printed.is_store_refused());
        let from = self.sent.front_mut().and_then(|sent| {
            sent.has_committed |= is_commit;
            sent.is_refused |= is_refused;
            sent.client.as_ref()
        });
        follow(&self.hall, line, printed, from);
        if let Printed::Ended(client) = printed {
            self.starts.forget(client);
            self.hall.go_on(self.hall.changes.end(client));
        }
        if is_commit || is_refused {
            self.hall.note_store(is_refused, line);
        }
    }

    // All was told of a frame.
    fn end(&mut self, next: Option<u64>) -> Result<()> {
        let sent = self.sent.pop_front();
        let is_refused = sent.as_ref().is_some_and(|sent| sent.is_refused);
        self.pulse.answer(next, is_refused);
        if is_refused {
            self.alone_until = Some(Instant::now() + ALONE);
        }
        if let Some(sent) = sent {
            // (its deadline is its own moment then)
            self.has_more = next.is_some_and(|next| next <= sent.moment);
            self.bytes_sent -= sent.bytes;
            self.hall.metrics.answered(sent.at.elapsed(), sent.has_committed);
        }
        if self.rows.as_ref().is_some_and(|(_, kept)| kept.has_ended()) {
            bail!("no commit of it is kept any more");
        }
        Ok(())
    }

    // A message goes to its client, once all was heard that came with it.
    fn pass(&mut self, client: u64, said: Said, message: &[u8]) {
        let Said { number, answer, .. } = said;
        if matches!(answer, MasterAnswer::Started(_)) {
            self.starts.tell(client);
        }
        match answer {
            MasterAnswer::Started(span) | MasterAnswer::Alive(span, _) => self.hall.picture().lease(client, span),
            MasterAnswer::Reply(_) | MasterAnswer::Refused(_) => self.hall.picture().answer(client, Some(number)),
        }
        if let MasterAnswer::Reply(refusal) = answer {
            refusal.into_iter().for_each(|refusal| self.hall.metrics.refused(refusal));
            self.hall.go_on(self.hall.changes.answer(client, number));
        }
        self.woken.extend(self.hall.routes.put(client, message));
    }

    // A copy is taken once no frame is out: nothing is written meanwhile.
    async fn copy(&mut self) {
        if !self.sent.is_empty() {
            return;
        }
        if let Some(reply) = self.copying.take() {
            let Some(path) = self.identity.as_ref().map(|identity| identity.path().to_owned()) else {
                let _ = reply.send(Err(io::Error::new(io::ErrorKind::Unsupported, "the rows stand in etcd")));
                return;
            };
            let copied = spawn_blocking(move || store::copy(&path)).await.unwrap_or_else(|error| Err(io::Error::other(error)));
            // (who asked may be gone; then the copy is, too)
            let _ = reply.send(copied);
        }
    }

    // It goes in order; or it is killed, where it doesn't.
    async fn stop(&mut self) -> Result<MasterEnd> {
        match self.go().await {
            Ok(status) => return Ok(MasterEnd::Asked(status)),
            Err(error) => error!(reason = %format_args!("{error:#}"), "the master doesn't go"),
        }
        // (one that is gone can't be killed)
        let _ = self.child.start_kill();
        Ok(MasterEnd::Asked(self.child.wait().await?))
    }

    // It is told to go, and closes its store.
    async fn go(&mut self) -> Result<ExitStatus> {
        self.input.put(Frame::Down)?;
        self.input.is_over = true;
        loop {
            tokio::select! {
                () = self.input.write() => {}
                came = timeout(PATIENCE, self.blocks.fill_of(&mut self.output)) => {
                    if !came.context("it doesn't answer")?? {
                        break;
                    }
                    self.hear_all()?;
                }
            }
        }
        Ok(timeout(PATIENCE, self.child.wait()).await.context("it tells nothing more, and doesn't end")??)
    }
}
