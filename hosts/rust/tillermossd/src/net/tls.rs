//! How an etcd is reached by TLS.

use anyhow::{Context, Result, bail};
use host_wire::trust::{show_by, trust};
use openssl::ssl::{SslConnector, SslMethod};
use std::net::IpAddr;
use std::path::Path;
use std::pin::Pin;
use std::sync::Arc;
use tokio::net::TcpStream;
use tokio_openssl::SslStream;

/// The name of HTTP/2, by which alone etcd is spoken to, and its length before it.
const PROTOCOL: &[u8] = b"\x02h2";

/// By what an etcd is known, and by what this server is known there, where it shows itself.
pub fn client_config(authority: &Path, own: Option<(&Path, &Path)>) -> Result<Arc<Connector>> {
    let mut connector = SslConnector::builder(SslMethod::tls_client())?;
    trust(&mut connector, authority, None)?;
    own.into_iter().try_for_each(|(certificate, key)| show_by(&mut connector, certificate, key))?;
    connector.set_alpn_protos(PROTOCOL)?;
    Ok(Arc::new(Connector(connector.build())))
}

/// How an etcd is reached by TLS.
#[derive(Debug)]
pub struct Connector(SslConnector);

impl Connector {
    /// The stream, encrypted, to a host that shows that it has this name.
    pub async fn connect(&self, host: &str, stream: TcpStream) -> Result<SslStream<TcpStream>> {
        let host = host.trim_matches(['[', ']']);
        if host.is_empty() {
            bail!("a member without a host");
        }
        let is_named = host.parse::<IpAddr>().is_err();
        let session = self.0.configure()?.use_server_name_indication(is_named).into_ssl(host)?;
        let mut stream = SslStream::new(session, stream)?;
        Pin::new(&mut stream).connect().await.context("the member isn't trusted, or doesn't trust this server")?;
        if stream.ssl().selected_alpn_protocol() != Some(&PROTOCOL[1..]) {
            bail!("the member doesn't speak HTTP/2");
        }
        Ok(stream)
    }
}
