//! The server, from its start to its end.

use crate::admin::desks::{AdminDoor, Counter, Operators};
use crate::admin::pages::{Office, ServerKind};
use crate::admin::showing::Showing;
use crate::etcd::gateway::Members;
use crate::etcd::mastership::{Bell, Mastership, Seat};
use crate::etcd::standby::{self, KnownMaster, Others};
use crate::etcd::warm::Warm;
use crate::etcd::{self, guard, upkeep};
use crate::etcd::{Place, Rows};
use crate::master::child::{Making, Master, MasterEnd, Order, StoreRefused};
use crate::master::locks::take_lock;
use crate::master::numbers::{Epochs, Numbers};
use crate::master::picture::Picture;
use crate::master::program::Program;
use crate::master::store::{self, Head, beside};
use crate::net::connections::{Hall, take_all};
use crate::net::doors::{Comer, Door, context};
use crate::options::ServerOptions;
use crate::settings::{Limits, MadeWith, Settings};
use crate::signals::{Going, Signals};
use anyhow::{Context, Result, anyhow, bail};
use host_wire::handshakes::Certificates;
use host_wire::{Address, Notice};
use nix::sys::resource::{Resource, getrlimit, setrlimit};
use sd_notify::NotifyState;
use std::fs;
use std::io::{self, Write};
use std::os::unix::fs::PermissionsExt;
use std::os::unix::process::CommandExt;
use std::path::{Path, PathBuf};
use std::pin::pin;
use std::process::Command;
use std::sync::{Arc, Mutex, OnceLock, PoisonError};
use std::thread;
use std::time::{Duration, Instant};
use tokio::runtime::Runtime;
use tokio::sync::mpsc;
use tokio::time::{interval, timeout};
use tracing::{error, info, warn};

/// How many masters are started in so long at most: more of them don't help.
const MASTERS: usize = 5;
const WHILE: Duration = Duration::from_secs(60);

/// How long after a master whose epoch the store refused the next one is tried: each time in a row twice as long, from the first on
/// until the last.
const AGAIN: (Duration, Duration) = (Duration::from_millis(500), Duration::from_secs(5));

/// The version of this program.
const VERSION: &str = env!("CARGO_PKG_VERSION");

/// What is told of a master that says so itself.
const UNPROVED: &str = "the master was built without proof";

/// By which a server that stands by anew, as a new process, knows the mastership that it had.
const LAST_SERVER: &str = "TILLERMOSSD_LAST_SERVER";

/// The address of the last other server that was master, as far as this one knew.
const LAST_MASTER: &str = "TILLERMOSSD_LAST_MASTER";

/// How often the service manager hears that the server lives.
const WATCHDOG: Duration = Duration::from_secs(5);

/// Reads what the cell looks like, which takes a while: meanwhile the master comes up.
pub type Reading = Box<dyn FnOnce() -> Result<Picture> + Send>;

/// What was found before a master is started.
struct Found {
    picture: Reading,
    numbers: Numbers,
    settings: Settings,
    warnings: Vec<String>,
}

/// Serves until it is told to go, and then goes in order; or answers why it can't, or why the master is gone.
pub fn serve(options: ServerOptions) -> Result<()> {
    if let Some(place) = &options.rows {
        check_version(&options)?;
        return serve_rows(place.clone(), options);
    }
    let path = options.store.clone().context("--store is missing")?;
    let path = fs::canonicalize(&path).unwrap_or(path);
    let folder = path.parent().filter(|folder| !folder.as_os_str().is_empty()).unwrap_or(Path::new("."));
    if !folder.is_dir() {
        bail!("--store {}: there is no folder {}: make it first, for this user alone", path.display(), folder.display());
    }
    if path.is_dir() {
        bail!("{} is a folder: --store names a file in one", path.display());
    }
    check_version(&options)?;
    let _lock = take_lock(&beside(&path, "lock"))?;
    store::forget_copies(&path)?;
    let found = look(&options, &path)?;
    let runtime = begin()?;
    let served = runtime.block_on(async { run(Arc::new(options), path, None, found, &mut Signals::take()?, None).await });
    // (what still goes on goes with the process)
    runtime.shutdown_background();
    served
}

fn begin() -> Result<Runtime> {
    let most = descriptors()?;
    setrlimit(Resource::RLIMIT_NOFILE, most, most)?;
    Ok(tokio::runtime::Builder::new_multi_thread().enable_all().build()?)
}

// How many this process may have open.
fn descriptors() -> nix::Result<u64> {
    getrlimit(Resource::RLIMIT_NOFILE).map(|(_, most)| most)
}

// The limits of the settings, as far as there are descriptors for them.
fn limits(settings: &Settings) -> Limits {
    let descriptors = descriptors().unwrap_or(u64::MAX);
    let limits = settings.limits.clone().within(descriptors);
    if limits.connections < settings.limits.connections {
        info!(descriptors, connections = limits.connections, "fewer connections are let in than the limits say: each wants a descriptor");
    }
    limits
}

// Stands by until it is master, and serves then. If the mastership has ended it stands by anew, as a new process.
fn serve_rows(place: Place, options: ServerOptions) -> Result<()> {
    // (so who stands by for nothing learns it at once)
    Settings::read(options.settings.as_deref(), true)?;
    let runtime = begin()?;
    let options = Arc::new(options);
    let gateway = place.gateway(&options.trust)?;
    let seat = Seat { address: standby::address(&options), server: hex::encode(rand::random::<[u8; 8]>()) };
    let server = seat.server.clone();
    let warm = Warm::begin(&gateway, &place.prefix());
    // (so who becomes master doesn't wait for what its program says of itself)
    let own = options.clone();
    thread::spawn(move || is_unproved(&own));
    let waited = runtime.block_on(wait_for_mastership(&options, &gateway, &place.prefix(), seat, warm.bell()))?;
    let Some(NewMaster { mastership, mut signals, counters, others }) = waited else {
        // (who waits for the mastership may wait on: it ends with the process)
        runtime.shutdown_background();
        return Ok(());
    };
    // (without it others wait until the mastership has run out)
    let guarded = guard::begin(&place, &options.trust, &mastership);
    if let Err(fault) = &guarded {
        warn!(reason = %format_args!("{fault:#}"), "the mastership has no guard");
    }
    let rows = Rows { gateway, prefix: place.prefix(), mastership: mastership.clone(), found: Arc::default() };
    let served = look_beside(&options, &rows, &warm)
        .and_then(|found| runtime.block_on(run(options, PathBuf::new(), Some(rows), found, &mut signals, Some(counters))));
    runtime.shutdown_background();
    if served.is_ok() || signals.going.is_told() || mastership.holds() {
        // (where etcd isn't reached the mastership ends by itself)
        let _ = mastership.end();
        return served;
    }
    warn!("standing by again");
    let mut again = Command::new(std::env::current_exe()?);
    again.args(std::env::args_os().skip(1)).env(LAST_SERVER, server);
    again.env(LAST_MASTER, &others.lock().unwrap_or_else(PoisonError::into_inner).last);
    Err(again.exec().into())
}

// What a server has that stood by, and is master now.
struct NewMaster {
    mastership: Arc<Mastership>,
    signals: Signals,
    counters: Counters,
    others: KnownMaster,
}

// Where operators come, and what is shown to them by TLS.
struct Counters {
    places: Vec<(Counter, Address)>,
    certificates: Option<Arc<Certificates>>,
}

// None where it is told to go first.
async fn wait_for_mastership(
    options: &ServerOptions,
    gateway: &Arc<Members>,
    prefix: &str,
    seat: Seat,
    bell: Arc<Bell>,
) -> Result<Option<NewMaster>> {
    let mut signals = Signals::take()?;
    let certificates = certificates(options, &options.listen, Comer::Client)?;
    let last = std::env::var(LAST_MASTER).unwrap_or_default();
    let known: KnownMaster = Arc::new(Mutex::new(Others { last, ..Others::default() }));
    let mut tasks = standby::stand_by(options, certificates.as_ref(), &known).await?;
    let counters = open_counters(options).await?;
    for (counter, _) in &counters.places {
        counter.turn(ServerKind::StandsBy(known.clone()));
    }
    // (whoever started it may listen no more)
    let _ = writeln!(io::stdout(), "standing by");
    let _ = tell(&[], &counters.places);
    let (gateway, prefix, span, others) = (gateway.clone(), prefix.to_owned(), options.mastership, known.clone());
    let mut waiting = tokio::task::spawn_blocking(move || {
        let last = std::env::var(LAST_SERVER).ok();
        Mastership::wait(&gateway, &prefix, &seat, span, last.as_deref(), &bell, |other| {
            known.lock().unwrap_or_else(PoisonError::into_inner).see(other, &seat.address)
        })
    });
    // (where no service manager waits for it nothing is told)
    let _ = sd_notify::notify(false, &[NotifyState::Ready]);
    let mut beats = interval(WATCHDOG);
    let mastership = loop {
        tokio::select! {
            taken = &mut waiting => break taken?,
            () = signals.going.wait() => return Ok(None),
            // (the settings are read when it is master)
            _ = signals.hangup.recv() => renew_certificates(options, Shows { clients: &certificates, operators: &counters.certificates }),
            _ = beats.tick() => drop(sd_notify::notify(false, &[NotifyState::Watchdog])),
        }
    };
    // (the addresses are free after it)
    tasks.shutdown().await;
    Ok(Some(NewMaster { mastership, signals, counters, others }))
}

// What is shown at these addresses to those who come there, if one is by TLS.
fn certificates(options: &ServerOptions, addresses: &[Address], comer: Comer) -> Result<Option<Arc<Certificates>>> {
    let is_tls = addresses.iter().any(|address| matches!(address, Address::Tls(_)));
    if is_tls { Ok(Some(Arc::new(Certificates::new(context(options, comer)?)?))) } else { Ok(None) }
}

// Where operators come, as that was asked for. (Who gets to a socket or to tcp: on this machine is known by the machine.)
async fn open_counters(options: &ServerOptions) -> Result<Counters> {
    let operators = Arc::new(Operators::read(options)?);
    let certificates = certificates(options, &options.admin, Comer::Operator)?;
    let mut places = Vec::new();
    for address in &options.admin {
        let (desk, opened) = AdminDoor::open(address, &operators, certificates.as_ref()).await?;
        let is_known_by_the_machine = address.is_local() && !matches!(address, Address::Tls(_));
        let counter = Counter::new(Some(operators.clone()).filter(|_| !is_known_by_the_machine));
        tokio::spawn(desk.serve(counter.clone()));
        places.push((counter, opened));
    }
    Ok(Counters { places, certificates })
}

// What the rows in etcd are, and what stands beside them. It waits for etcd while the mastership lasts.
fn look_beside(options: &ServerOptions, rows: &Rows, warm: &Warm) -> Result<Found> {
    let Rows { gateway, prefix, mastership, .. } = rows;
    let settings = Settings::read(options.settings.as_deref(), true)?;
    let found = mastership.insist(|| match gateway.get(&format!("{prefix}meta"))?.and_then(|own| warm.take(own.changed)) {
        Some(found) => Ok(found),
        None => etcd::found::Found::read(gateway, prefix, || mastership.check()),
    })?;
    let mut numbers = mastership.insist(|| Numbers::beside(rows, found.first_client()))?;
    let head = Head { epoch: found.epoch(), coming: found.epoch() + 1, has_known_secret: found.has_known_secret() };
    let epochs = head.check(numbers.epochs())?;
    let mut warnings = warnings(options, head.has_known_secret);
    if let Some(own) = found.own()? {
        warnings.extend(check(options, &settings, &own)?.iter().map(stranger));
    }
    mastership.insist(|| numbers.note(epochs))?;
    let found = Arc::new(found);
    *rows.found.lock().unwrap_or_else(PoisonError::into_inner) = Some(found.clone());
    let picture = Box::new(move || Ok(Picture::of_found(&found)));
    Ok(Found { picture, numbers, settings, warnings })
}

// What an operator is told of at the start.
fn warnings(options: &ServerOptions, has_known_secret: bool) -> Vec<String> {
    let mut warnings = Vec::new();
    if has_known_secret {
        warnings.push("the store's secret is all zeros: whoever knows that can forge a handle".to_owned());
    }
    let is_open = |address: &&Address| matches!(address, Address::Tcp(_));
    for address in options.listen.iter().filter(is_open) {
        let place = if address.is_local() { "this machine" } else { "everywhere" };
        warnings.push(format!("{address}: who connects from {place} acts for anybody, and nothing is encrypted"));
    }
    for address in options.admin.iter().filter(|address| matches!(address, Address::Tcp(_)) && !address.is_local()) {
        warnings.push(format!("{address}: nothing is encrypted there, so who listens between sees names, principals and the token"));
    }
    if is_unproved(options) {
        warnings.push(UNPROVED.to_owned());
    }
    warnings
}

// Looks at the store and what stands beside it. Nothing is written where they don't go together.
fn look(options: &ServerOptions, path: &Path) -> Result<Found> {
    let has_store = store::is_there(path)?;
    let settings = Settings::read(options.settings.as_deref(), false)?;
    let mut numbers = Numbers::open(&beside(path, "numbers"), has_store, options.first)?;
    let mut picture: Reading = Box::new(|| Ok(Picture::default()));
    let mut epochs = Epochs { last: 0, coming: 1 };
    let mut has_known_secret = settings.has_known_secret();
    let mut strangers = Vec::new();
    if has_store {
        let folder = store::copy(path).with_context(|| format!("reading {}", path.display()))?;
        let at = || format!("{0} isn't the file of a store that is whole: cellctl check {0} says what is wrong", path.display());
        let connection = store::open(&store::copied(&folder)).with_context(at)?;
        let head = Head::read(&connection).with_context(at)?;
        has_known_secret = head.has_known_secret;
        epochs = head.check(numbers.epochs())?;
        strangers = check(options, &settings, &MadeWith::read(&connection)?)?;
        picture = Box::new(move || {
            let _kept = folder;
            Picture::of(&connection)
        });
    }
    let mut warnings = warnings(options, has_known_secret);
    warnings.extend(strangers.iter().map(stranger));
    if has_store && fs::metadata(path)?.permissions().mode() & 0o077 != 0 {
        warnings.push(format!("others than its user may read {}", path.display()));
    }
    if !has_store {
        wanted_principals(options, &settings)?;
    }
    numbers.note(epochs)?;
    if has_store {
        return Ok(Found { picture, numbers, settings, warnings });
    }
    store::prepare(path).with_context(|| format!("making {}", path.display()))?;
    Ok(Found { picture, numbers, settings: settings.with_secret(), warnings })
}

// A new cell that others than this machine reach trusts those whom its settings name, and nobody else.
fn wanted_principals(options: &ServerOptions, settings: &Settings) -> Result<()> {
    // (another tcp: isn't listened at)
    let is_reached = |address: &Address| matches!(address, Address::Tls(_)) || (matches!(address, Address::Tcp(_)) && options.insecure);
    match options.listen.iter().find(|address| is_reached(address) && !address.is_local()) {
        Some(address) if !settings.has_principals() => {
            bail!(
                "{address}: a new cell that others than this machine reach trusts nobody; say whom in the file of --settings, as principals = [\"ann\"]"
            )
        }
        _ => Ok(()),
    }
}

// Whether the settings are those of the store; whom they name, and its ACL doesn't.
fn check(options: &ServerOptions, settings: &Settings, store: &MadeWith) -> Result<Vec<String>> {
    let file = options.settings.as_deref().unwrap_or(Path::new(""));
    settings.check(store).with_context(|| format!("the settings of {}", file.display()))
}

fn stranger(principal: &String) -> String {
    format!("the settings name {principal}, whom the ACL base doesn't: they are those of a new store")
}

// What the master says of itself; it is asked once.
fn told_by_master(options: &ServerOptions) -> io::Result<&'static str> {
    static TOLD: OnceLock<String> = OnceLock::new();
    if let Some(told) = TOLD.get() {
        return Ok(told);
    }
    let output = Command::new(options.master.clone().unwrap_or_else(cellctl)).arg("--version").output()?;
    Ok(TOLD.get_or_init(|| String::from_utf8_lossy(&output.stdout).trim().to_owned()))
}

// The master is cellctl, of this program's own version: another one may say and understand other bytes.
fn check_version(options: &ServerOptions) -> Result<()> {
    let path = options.master.clone().unwrap_or_else(cellctl);
    let wanted = || format!("starting {}: --master names the program cellctl, of the server's own version {VERSION}", path.display());
    let told = told_by_master(options).with_context(wanted)?;
    match told.strip_prefix("cellctl ").and_then(|rest| rest.split([',', ' ']).next()) {
        Some(VERSION) => Ok(()),
        _ => Err(anyhow!("it says that it is {told:?}").context(wanted())),
    }
}

fn is_unproved(options: &ServerOptions) -> bool {
    told_by_master(options).is_ok_and(|told| told.contains("without proof"))
}

/// The program beside this one, else the one on the path.
pub fn cellctl() -> PathBuf {
    let own = std::env::current_exe().ok().and_then(|own| own.parent().map(|folder| folder.join("cellctl")));
    own.filter(|program| program.exists()).unwrap_or_else(|| PathBuf::from("cellctl"))
}

// Listens at each address, with certificates where one is by TLS.
async fn open(options: &ServerOptions) -> Result<(Vec<(Door, Address)>, Option<Arc<Certificates>>)> {
    let certificates = certificates(options, &options.listen, Comer::Client)?;
    let mut doors = Vec::new();
    for address in &options.listen {
        doors.push(Door::open(address, options.insecure, certificates.as_ref()).await?);
    }
    Ok((doors, certificates))
}

async fn run(
    options: Arc<ServerOptions>,
    path: PathBuf,
    rows: Option<Rows>,
    found: Found,
    signals: &mut Signals,
    counters: Option<Counters>,
) -> Result<()> {
    for warning in &found.warnings {
        warn!("{warning}");
    }
    let (doors, certificates) = open(&options).await?;
    let counters = match counters {
        None => open_counters(&options).await?,
        Some(opened) => opened,
    };
    let mastership = rows.as_ref().map(|rows| rows.mastership.clone());
    let hall = Arc::new(Hall::new(found.numbers, &limits(&found.settings), mastership)?);
    let store = rows.is_none().then(|| path.clone());
    if let Some(rows) = &rows {
        hall.metrics.watch(rows)?;
        upkeep::begin(rows.clone(), Duration::from_secs(options.etcd_history));
    }
    let program = Program::new(&options.master.clone().unwrap_or_else(cellctl));
    let making = Making { program, store: path, rows, settings: found.settings };
    let (orders, ordered) = mpsc::channel(4);
    let Some(master) = first(&making, &hall, found.picture, &mut signals.going).await? else {
        return Ok(());
    };
    let ended = tokio::spawn(keep(master, making, hall.clone(), ordered));
    let mut listening = Vec::new();
    for (door, address) in doors {
        listening.push(address.to_string());
        tokio::spawn(take_all(door, hall.clone()));
    }
    let is_unproved = found.warnings.iter().any(|warning| warning == UNPROVED);
    hall.metrics.tell_build(is_unproved)?;
    let showing = Arc::new(Showing { hall: hall.clone(), listening, warnings: found.warnings, begun: Instant::now(), store });
    // (who reads where operators come is answered there at once)
    for (counter, address) in &counters.places {
        let is_private = matches!(address, Address::Unix(_));
        counter.turn(ServerKind::Master(Office { showing: showing.clone(), orders: orders.clone(), is_private }));
    }
    // (whoever started it may listen no more, as where it stood by before)
    let _ = tell(&showing.listening, &counters.places);
    // (where no service manager waits for it nothing is told)
    let _ = sd_notify::notify(false, &[NotifyState::Ready]);
    wait(&options, &hall, Shows { clients: &certificates, operators: &counters.certificates }, &orders, ended, signals).await
}

// The first master. None where the server is told to go meanwhile: one that comes up has served nobody, and is killed.
async fn first(making: &Making, hall: &Arc<Hall>, reading: Reading, going: &mut Going) -> Result<Option<Master>> {
    let mut beats = interval(WATCHDOG);
    let mut coming = pin!(up(making, hall, false, Some(reading)));
    let master = loop {
        tokio::select! {
            biased;
            () = going.wait() => return Ok(None),
            // (one that stood by has said that it is ready)
            _ = beats.tick(), if making.rows.is_some() => drop(sd_notify::notify(false, &[NotifyState::Watchdog])),
            master = &mut coming => break master?,
        }
    };
    if making.rows.is_none() && hall.picture().nodes.is_empty() {
        // (a store that the master has made; it writes nothing before it gets a frame)
        let folder = store::copy(&making.store)?;
        hall.picture().read(&store::open(&store::copied(&folder))?)?;
    }
    Ok(Some(master))
}

// Starts a master, and notes its epoch. What the first one finds is read while it comes up.
async fn up(making: &Making, hall: &Arc<Hall>, is_alone: bool, reading: Option<Reading>) -> Result<Master> {
    let master = making.start(hall, is_alone, reading).await?;
    let epoch = hall.picture().epoch;
    let (noting, mastership) = (hall.clone(), making.rows.as_ref().map(|rows| rows.mastership.clone()));
    let note = move || {
        let mut numbers = noting.numbers.lock().unwrap_or_else(PoisonError::into_inner);
        match mastership {
            Some(mastership) => mastership.insist(|| numbers.note_up(epoch)),
            None => numbers.note_up(epoch),
        }
    };
    tokio::task::spawn_blocking(note).await??;
    info!(process = master.process(), epoch, "serving");
    Ok(master)
}

// Keeps a master up, until it was told to go; why there can't be one.
async fn keep(mut master: Master, making: Making, hall: Arc<Hall>, mut orders: mpsc::Receiver<Order>) -> Result<()> {
    let mut starts = Vec::new();
    loop {
        let (reason, is_alone) = match master.run(&mut orders).await {
            MasterEnd::Asked(status) if status.success() => return Ok(()),
            MasterEnd::Asked(status) => bail!("the master is gone: {status}"),
            MasterEnd::StoreGone(reason) => bail!("{reason}; nothing more is written"),
            MasterEnd::Gone(reason) => (reason, false),
            MasterEnd::Refused(reason) => (format!("{reason}; the store refused what several frames changed"), true),
        };
        if making.rows.as_ref().is_some_and(|rows| !rows.mastership.holds()) {
            bail!("the mastership has ended");
        }
        error!(reason, "the master is gone; another takes its place");
        hall.picture().is_up = false;
        hall.metrics.replaced();
        starts.push(Instant::now());
        starts.retain(|start| start.elapsed() < WHILE);
        if starts.len() > MASTERS {
            bail!("the master is gone again and again: {reason}");
        }
        let next = up_again(&making, &hall, is_alone, &mut orders).await?;
        let Some(next) = next else {
            return Ok(());
        };
        master = next;
        hall.go_on(hall.changes.begin_anew());
        // (what was on its way to the last one is lost, also Beats that it kept)
        hall.routes.send_to_all(&Notice::of_new_master().write());
    }
}

// Starts a master; while the store refuses its epoch it is tried again a little later. None where it was told to go meanwhile.
async fn up_again(making: &Making, hall: &Arc<Hall>, is_alone: bool, orders: &mut mpsc::Receiver<Order>) -> Result<Option<Master>> {
    let mut pause = AGAIN.0;
    loop {
        if making.rows.as_ref().is_some_and(|rows| !rows.mastership.holds()) {
            bail!("the mastership has ended");
        }
        let noted = hall.numbers.lock().unwrap_or_else(PoisonError::into_inner).note_start();
        let starting = async { noted.map(|()| up(making, hall, is_alone, None))?.await };
        let started = tokio::select! {
            started = starting => started,
            () = is_ordered_down(orders) => return Ok(None),
        };
        match started {
            // (over a store that has just refused a change the master itself may find no room to open it)
            Err(error) if is_alone || error.is::<StoreRefused>() => {
                error!(reason = %format_args!("{error:#}"), "no master comes up; it is tried again")
            }
            started => return started.map(Some),
        }
        if timeout(pause, is_ordered_down(orders)).await.is_ok() {
            return Ok(None);
        }
        pause = (2 * pause).min(AGAIN.1);
    }
}

// Waits until the master is told to go. (A copy waits for a master: who asked for one learns that there is none.)
async fn is_ordered_down(orders: &mut mpsc::Receiver<Order>) {
    while !matches!(orders.recv().await, Some(Order::Down) | None) {}
}

fn tell(listening: &[String], counters: &[(Counter, Address)]) -> io::Result<()> {
    let mut out = io::stdout();
    for address in listening {
        writeln!(out, "listening {address}")?;
    }
    for (_, address) in counters {
        writeln!(out, "admin {address}")?;
    }
    out.flush()
}

// Waits for signals and for the end.
async fn wait(
    options: &ServerOptions,
    hall: &Hall,
    shows: Shows<'_>,
    orders: &mpsc::Sender<Order>,
    mut ended: tokio::task::JoinHandle<Result<()>>,
    signals: &mut Signals,
) -> Result<()> {
    let mut beats = interval(WATCHDOG);
    loop {
        tokio::select! {
            end = &mut ended => return end.context("the master's task is gone")?,
            // (where the master's task is gone the server ends already)
            () = signals.going.wait() => drop(orders.send(Order::Down).await),
            _ = signals.hangup.recv() => renew(options, hall, shows),
            _ = beats.tick() => {
                // (where no service manager waits for it nothing is told)
                let _ = sd_notify::notify(false, &[NotifyState::Watchdog]);
            }
        }
    }
}

// Reads limits and certificates again; where that fails what there was stays.
fn renew(options: &ServerOptions, hall: &Hall, shows: Shows) {
    match Settings::read(options.settings.as_deref(), options.rows.is_some()) {
        Ok(settings) => {
            let (limits, are_others) = limits(&settings).beside(&hall.limits());
            *hall.limits.write().unwrap_or_else(PoisonError::into_inner) = limits;
            info!("the limits were read again; what is said of the cell holds from the next start on");
            if are_others {
                warn!("nodes, bytes or locks of the limits are others now: they hold from the next start on");
            }
        }
        Err(error) => error!(reason = %format_args!("{error:#}"), "the settings stay as they were"),
    }
    renew_certificates(options, shows);
}

// What is shown by TLS to those who come, where one does by TLS.
#[derive(Clone, Copy)]
struct Shows<'a> {
    clients: &'a Option<Arc<Certificates>>,
    operators: &'a Option<Arc<Certificates>>,
}

fn renew_certificates(options: &ServerOptions, shows: Shows) {
    for (comer, certificates) in [(Comer::Client, shows.clients), (Comer::Operator, shows.operators)] {
        let Some(certificates) = certificates else {
            continue;
        };
        match context(options, comer) {
            Ok(context) => {
                certificates.renew(context);
                info!("the certificates were read again");
            }
            Err(error) => error!(reason = %format_args!("{error:#}"), "the certificates stay as they were"),
        }
    }
}
