//! A cell whose rows stand in etcd, and which several servers stand by for.

pub mod channels;
pub mod copying;
pub mod decisions;
pub mod found;
pub mod gateway;
pub mod guard;
pub mod keeper;
pub mod mastership;
pub mod messages;
pub mod pipes;
#[cfg(test)]
pub mod pretended;
#[cfg(test)]
mod real;
pub mod rows;
pub(crate) mod standby;
pub mod upkeep;
pub mod warm;

use crate::etcd::found::Found;
use crate::etcd::gateway::Members;
use crate::etcd::keeper::RowsKeeper;
use crate::etcd::mastership::Mastership;
use crate::etcd::pipes::MasterPipes;
use crate::net::tls::client_config;
use anyhow::{Context, Error, bail};
use clap::Args;
use host_wire::is_component;
use std::ffi::OsString;
use std::fmt::{self, Display, Formatter};
use std::fs;
use std::path::PathBuf;
use std::str::FromStr;
use std::sync::{Arc, Mutex, PoisonError};

/// Where the rows of a cell stand.
#[derive(Clone, Debug, PartialEq, Eq)]
pub struct Place {
    /// The members of the etcd, each a host and a port.
    pub members: Vec<String>,
    /// What stands in front of the cell's keys, before a slash.
    pub cell: String,
}

/// How an etcd is reached by TLS.
#[derive(Clone, Debug, Default, PartialEq, Eq, Args)]
pub struct Trust {
    /// The authorities that sign the certificates of etcd, in PEM; without it nothing is encrypted on the way to etcd
    #[arg(long)]
    pub etcd_ca: Option<PathBuf>,
    /// By which etcd knows this program, in PEM
    #[arg(long, requires_all = ["etcd_ca", "etcd_key"])]
    pub etcd_cert: Option<PathBuf>,
    /// The key of that certificate, in PEM
    #[arg(long, requires = "etcd_cert")]
    pub etcd_key: Option<PathBuf>,
    /// The user of etcd that this program asks as, where etcd wants one
    #[arg(long, requires = "etcd_password")]
    pub etcd_user: Option<String>,
    /// The file that has this user's password, in its first line
    #[arg(long, requires = "etcd_user")]
    pub etcd_password: Option<PathBuf>,
}

impl Trust {
    // The user and his password.
    fn user(&self) -> Result<Option<(String, String)>, Error> {
        let Some((name, path)) = self.etcd_user.as_ref().zip(self.etcd_password.as_ref()) else {
            return Ok(None);
        };
        let text =
            fs::read_to_string(path).with_context(|| format!("--etcd-password names the file with the password: {}", path.display()))?;
        let password = text.lines().next().filter(|line| !line.is_empty());
        let password = password.with_context(|| format!("there is no password in the first line of {}", path.display()))?;
        Ok(Some((name.clone(), password.to_owned())))
    }

    /// As a command line says it.
    #[must_use]
    pub fn words(&self) -> Vec<OsString> {
        let path = |path: &Option<PathBuf>| path.clone().map(PathBuf::into_os_string);
        let named = [
            ("--etcd-ca", path(&self.etcd_ca)),
            ("--etcd-cert", path(&self.etcd_cert)),
            ("--etcd-key", path(&self.etcd_key)),
            ("--etcd-user", self.etcd_user.clone().map(OsString::from)),
            ("--etcd-password", path(&self.etcd_password)),
        ];
        named.into_iter().filter_map(|(name, value)| Some([OsString::from(name), value?])).flatten().collect()
    }
}

/// The rows of a cell in etcd, by the mastership of this server.
#[derive(Clone, Debug)]
pub struct Rows {
    /// How etcd is reached.
    pub gateway: Arc<Members>,
    /// What stands in front of the cell's keys.
    pub prefix: String,
    /// The mastership.
    pub mastership: Arc<Mastership>,
    /// What was found there before the first master, which needn't be read again where nothing was written since.
    pub found: Arc<Mutex<Option<Arc<Found>>>>,
}

impl Rows {
    /// Makes the pipes by which a master keeps them, once nothing that an earlier keeper sent can be done any more. It waits for etcd.
    pub fn keep(&self) -> Result<MasterPipes, Error> {
        let found = self.found.lock().unwrap_or_else(PoisonError::into_inner).take();
        pipes::keep(RowsKeeper::open(&self.gateway, &self.prefix, self.mastership.clone(), found)?)
    }
}

impl Display for Place {
    fn fmt(&self, out: &mut Formatter<'_>) -> fmt::Result {
        write!(out, "etcd://{}/{}", self.members.join(","), self.cell)
    }
}

impl FromStr for Place {
    type Err = Error;

    fn from_str(word: &str) -> Result<Place, Error> {
        let Some((members, cell)) = word.strip_prefix("etcd://").and_then(|rest| rest.split_once('/')) else {
            bail!("wants etcd://HOST:PORT,HOST:PORT/CELL");
        };
        let members: Vec<String> = members.split(',').map(str::to_owned).collect();
        if members.iter().any(|member| !member.contains(':')) || !is_component(cell) {
            bail!("wants etcd://HOST:PORT,HOST:PORT/CELL");
        }
        Ok(Place { members, cell: cell.to_owned() })
    }
}

impl Place {
    /// How its etcd is reached.
    pub fn gateway(&self, trust: &Trust) -> Result<Arc<Members>, Error> {
        let own = trust.etcd_cert.as_deref().zip(trust.etcd_key.as_deref());
        let config = trust.etcd_ca.as_ref().map(|authority| client_config(authority, own)).transpose()?;
        Ok(Arc::new(Members::new(&self.members, config.as_ref(), trust.user()?)?))
    }

    /// What stands in front of the cell's keys.
    #[must_use]
    pub fn prefix(&self) -> String {
        format!("{}/", self.cell)
    }
}
